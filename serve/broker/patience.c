#include "patience.h"

#include <errno.h>
#include <stdint.h>
#include <string.h>

#include "clock.h"

/* How long one look takes. It counts for no more, however long this program itself was stopped meanwhile. */
#define LOOK CLOCK_SECOND
/* Seconds that are left after a signal, or after the end of the command. */
#define LEFT 2

/* Looks once; `took` becomes the nanoseconds that count for it. Whether a file shows something. */
static bool look(const struct patience *patience, struct pollfd *shown, size_t count, uint64_t *took) {
    uint64_t begin = clock_monotonic();
    bool ready = false;
    shown[count] = (struct pollfd){.fd = patience->signals->number, .events = POLLIN};
    int found = poll(shown, count + 1, LOOK / CLOCK_MILLISECOND);
    for (size_t i = 0; found > 0 && i < count; i++)
        ready = ready || shown[i].revents != 0;
    *took = clock_monotonic() - begin;
    if (*took > LOOK || (found < 0 && errno != EINTR))
        *took = LOOK;
    return ready;
}

/* The limit, in nanoseconds, of a wait that has taken so long and is interrupted. */
static uint64_t shortened(uint64_t limit, uint64_t waited) {
    return limit - waited > LEFT * CLOCK_SECOND ? waited + LEFT * CLOCK_SECOND : limit;
}

enum patience_end patience_wait(
    const struct patience *patience, const struct pollfd *files, size_t count, unsigned *heeded) {
    struct signals *signals = patience->signals;
    struct pollfd shown[PATIENCE_FILES + 1];
    uint64_t took, waited = 0, limit = patience->limit ? patience->limit * CLOCK_SECOND : UINT64_MAX;
    unsigned received = signals->received;
    bool ended = signals->ended, interrupted = received != *heeded;
    memcpy(shown, files, count * sizeof *shown);
    if (interrupted)
        limit = shortened(limit, waited);
    while (waited < limit) {
        if (look(patience, shown, count, &took)) {
            *heeded = signals->received;
            return PATIENCE_READY;
        }
        waited += took;
        signals_receive(signals);
        if (interrupted || (signals->received == received && signals->ended == ended))
            continue;
        interrupted = true;
        limit = shortened(limit, waited);
    }
    return interrupted ? PATIENCE_INTERRUPTED : PATIENCE_LIMIT;
}
