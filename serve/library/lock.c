#include "lock.h"

#include <linux/futex.h>
#include <stddef.h>
#include <sys/syscall.h>
#include <unistd.h>

enum { FREE, HELD, AWAITED };

void lock_take(uint32_t *lock) {
    uint32_t found = FREE;
    if (__atomic_compare_exchange_n(lock, &found, HELD, 0, __ATOMIC_ACQUIRE, __ATOMIC_RELAXED))
        return;
    while (__atomic_exchange_n(lock, AWAITED, __ATOMIC_ACQUIRE) != FREE)
        syscall(SYS_futex, lock, FUTEX_WAIT_PRIVATE, AWAITED, NULL, NULL, 0);
}

void lock_release(uint32_t *lock) {
    if (__atomic_exchange_n(lock, FREE, __ATOMIC_RELEASE) == AWAITED)
        syscall(SYS_futex, lock, FUTEX_WAKE_PRIVATE, 1, NULL, NULL, 0);
}
