#include "tree.h"

#include <stddef.h>

#include "ask.h"

/* What this process knows of the file system. It may be asked for twice at once: the answer is the same. */
enum { UNKNOWN, SHOWN, HIDDEN };
static int state;

bool tree_is_shown(void) {
    return __atomic_load_n(&state, __ATOMIC_ACQUIRE) == SHOWN;
}

static bool ask_for(enum wire_tree need) {
    struct question question = {.op = WIRE_TREE, .command = need};
    struct answer answer;
    int known = __atomic_load_n(&state, __ATOMIC_ACQUIRE);
    if (known == UNKNOWN) {
        known = ask(&question, NULL, &answer, NULL, 0, NULL, true) == 0 && answer.error == 0 ? SHOWN : HIDDEN;
        /* (where it was only looked for, its use is still to be reported) */
        if (known == SHOWN || need == WIRE_TREE_USES)
            __atomic_store_n(&state, known, __ATOMIC_RELEASE);
    }
    return known == SHOWN;
}

bool tree_uses(void) {
    return ask_for(WIRE_TREE_USES);
}

bool tree_searches(void) {
    return ask_for(WIRE_TREE_SEARCHES);
}
