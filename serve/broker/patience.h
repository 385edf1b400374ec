/* Waiting for other programs that have the other end of a file: never without end. */
#ifndef PATIENCE_H
#define PATIENCE_H

#include <poll.h>
#include <stddef.h>

#include "signals.h"

/* Files that are waited for at once, at most. */
#define PATIENCE_FILES 2

struct patience {
    struct signals *signals;
    unsigned limit; /* in seconds; 0: none */
};

enum patience_end {
    PATIENCE_READY,      /* one of the files shows something */
    PATIENCE_LIMIT,      /* none has within the time */
    PATIENCE_INTERRUPTED /* a signal or the command's end came, and none has within some seconds after that */
};

/* Waits until one of the files shows something, as poll does. Signals are handed on meanwhile. `heeded` is how many
 * signals had come when these files last showed something: one that came since then interrupts this wait too, since the
 * command may wait for its end. */
enum patience_end patience_wait(
    const struct patience *patience, const struct pollfd *files, size_t count, unsigned *heeded);

#endif
