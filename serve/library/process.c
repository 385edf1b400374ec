#include "process.h"

#include <stddef.h>
#include <sys/mman.h>
#include <sys/syscall.h>
#include <unistd.h>

/* The page that is zeroed in children; NULL before it is needed, and MAP_FAILED where there can be none. */
static void *page;

static void *make_page(void) {
    size_t size = (size_t)getpagesize();
    void *made = mmap(NULL, size, PROT_READ | PROT_WRITE, MAP_PRIVATE | MAP_ANONYMOUS, -1, 0);
    if (made != MAP_FAILED && madvise(made, size, MADV_WIPEONFORK)) {
        munmap(made, size);
        made = MAP_FAILED;
    }
    void *before = NULL;
    if (__atomic_compare_exchange_n(&page, &before, made, false, __ATOMIC_ACQ_REL, __ATOMIC_ACQUIRE))
        return made;
    if (made != MAP_FAILED)
        munmap(made, size);
    return before;
}

struct process *process_own(void) {
    void *made = __atomic_load_n(&page, __ATOMIC_ACQUIRE);
    if (!made)
        made = make_page();
    if (made == MAP_FAILED)
        return NULL;
    struct process *process = made;
    pid_t owner = __atomic_load_n(&process->owner, __ATOMIC_ACQUIRE);
    return owner == 0 || owner == getpid() ? process : NULL;
}
