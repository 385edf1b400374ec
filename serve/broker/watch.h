/* What the loop waits for: a file's number, and what it is. */
#ifndef WATCH_H
#define WATCH_H

#include <stdbool.h>

enum watch_kind {
    WATCH_INPUT,
    WATCH_LISTENER,
    WATCH_SIGNALS,
    WATCH_SERVED,
    WATCH_ENDS,
    WATCH_FILE,
    WATCH_CLIENT,
    WATCH_TREE,
    WATCH_CALLS
};

struct watch {
    enum watch_kind kind;
    int number;
    void *owner; /* the file or the client */
};

/* Waits from now on for these events, and for errors, by a poller of epoll. The watch has to stay. False, with errno,
 * where that can't be. */
bool watch_by(int poller, struct watch *watch, unsigned events);

/* Waits for other events from now on. */
bool watch_change(int poller, struct watch *watch, unsigned events);

#endif
