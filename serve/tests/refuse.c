// Counts the allocations of the program that this library is loaded into, refuses the one whose number, counted from 1,
// the variable FAILS has, and at the end writes the count to the file COUNT. checks/memory and checks/served build it.
// It owns nothing and frees nothing.
#include <errno.h>
#include <stdio.h>
#include <stdlib.h>
#include <sys/syscall.h>
#include <unistd.h>

void *__libc_malloc(size_t), *__libc_calloc(size_t, size_t), *__libc_realloc(void *, size_t),
    *__libc_memalign(size_t, size_t);

static unsigned long calls, fails;

__attribute__((constructor)) static void start(void) {
    const char *number = getenv("FAILS");
    calls = 0;
    fails = number ? strtoul(number, 0, 10) : 0;
}

static void write_count(void) {
    unsigned long made = calls;
    const char *name = getenv("COUNT");
    fails = 0;
    FILE *file = name ? fopen(name, "w") : 0;
    if (file) {
        fprintf(file, "%lu\n", made);
        fclose(file);
    }
}

/* A program that returns ends by exit, and one that is told to by _exit. */
__attribute__((destructor)) static void end(void) {
    write_count();
}

void _exit(int status) {
    write_count();
    for (;;)
        syscall(SYS_exit_group, status);
}

static int refused(void) {
    if (++calls != fails)
        return 0;
    errno = ENOMEM;
    return 1;
}

void *malloc(size_t size) {
    return refused() ? 0 : __libc_malloc(size);
}
void *calloc(size_t count, size_t size) {
    return refused() ? 0 : __libc_calloc(count, size);
}
void *realloc(void *old, size_t size) {
    return refused() ? 0 : __libc_realloc(old, size);
}
void *aligned_alloc(size_t align, size_t size) {
    return refused() ? 0 : __libc_memalign(align, size);
}
int posix_memalign(void **out, size_t align, size_t size) {
    if (refused())
        return ENOMEM;
    *out = __libc_memalign(align, size);
    return *out ? 0 : ENOMEM;
}
