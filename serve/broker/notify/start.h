/* Starts a command under the filter. */
#ifndef START_H
#define START_H

#include "notify.h"

/* How far the start of a command came. */
enum start_outcome {
    START_DONE,
    START_REFUSED, /* its calls can't be notified of here, which was reported */
    START_NOT_RUN  /* the program can't be run */
};

/* Starts the program of `words`, looked for on the PATH, with that environment, and begins to receive its calls.
 * `*error` is the error's number where the program can't be run, else 0. */
enum start_outcome start_command(
    struct notify *notify, pid_t *pid, char *const *words, char *const *environment, int *error);

#endif
