#include "memory.h"

#include <errno.h>
#include <limits.h>
#include <stdint.h>
#include <string.h>
#include <sys/syscall.h>
#include <sys/uio.h>
#include <unistd.h>

/* What one look reaches: a word, which never lies on two pages. */
#define WORD sizeof(uint64_t)
/* No page is smaller. */
#define PAGE 4096

/* The kernel reads a set of signals before it refuses what is to be done with it. */
static bool is_word_readable(uintptr_t address) {
    const int refused = -1;
    return syscall(SYS_rt_sigprocmask, refused, address & ~(uintptr_t)(WORD - 1), NULL, WORD) == 0 || errno != EFAULT;
}

bool memory_is_readable(const void *bytes, size_t length) {
    uintptr_t first = (uintptr_t)bytes, last = first + (length ? length - 1 : 0);
    int kept = errno;
    bool readable = last >= first && is_word_readable(last);
    for (uintptr_t at = first; readable && at <= last; at = (at | (PAGE - 1)) + 1)
        readable = is_word_readable(at);
    errno = kept;
    return readable;
}

long memory_text_length(const char *text) {
    long length = 0;
    int kept = errno;
    bool good = text != NULL;
    for (; good && length < PATH_MAX; length++) {
        if (length == 0 || (uintptr_t)(text + length) % PAGE == 0)
            good = is_word_readable((uintptr_t)(text + length));
        if (good && text[length] == 0)
            break;
    }
    errno = kept;
    return good && length < PATH_MAX ? length : -1;
}

/* (where a filter forbids the call that asks first, a wrong address crashes) */
int memory_write(void *target, const void *bytes, size_t length) {
    struct iovec source = {(void *)bytes, length}, place = {target, length};
    int kept = errno, error = 0;
    if (syscall(SYS_process_vm_writev, getpid(), &source, 1UL, &place, 1UL, 0UL) != (long)length) {
        error = errno == EFAULT ? EFAULT : 0;
        if (!error)
            memcpy(target, bytes, length);
    }
    errno = kept;
    return error;
}
