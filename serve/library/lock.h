/* A lock of one word that is free where all its bytes are zero. */
#ifndef LOCK_H
#define LOCK_H

#include <stdint.h>

/* Both may be called in a signal handler, where the thread that it interrupts can't hold the lock: whoever holds it has
 * all signals blocked. */
void lock_take(uint32_t *lock);
void lock_release(uint32_t *lock);

#endif
