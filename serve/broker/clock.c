#include "clock.h"

#include <stdlib.h>
#include <time.h>

static uint64_t clock_of(clockid_t which) {
    struct timespec time;
    if (clock_gettime(which, &time))
        abort();
    return (uint64_t)time.tv_sec * CLOCK_SECOND + (uint64_t)time.tv_nsec;
}

uint64_t clock_monotonic(void) {
    return clock_of(CLOCK_MONOTONIC);
}

uint64_t clock_real(void) {
    return clock_of(CLOCK_REALTIME);
}
