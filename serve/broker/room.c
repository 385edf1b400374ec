#include "room.h"

#include <stdlib.h>

#include "report.h"

static void out_of_memory(void) {
    report("out of memory");
    abort();
}

void room_for(char **bytes, size_t *room, size_t wanted) {
    if (wanted <= *room)
        return;
    size_t more = *room + *room / 2;
    if (more < wanted)
        more = wanted;
    char *grown = realloc(*bytes, more);
    if (!grown)
        out_of_memory();
    *bytes = grown;
    *room = more;
}

void *room_new(size_t size) {
    void *made = calloc(1, size);
    if (!made)
        out_of_memory();
    return made;
}
