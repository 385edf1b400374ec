/* The signals that end programs, which are handed on to the command, and the end of the command. */
#ifndef SIGNALS_H
#define SIGNALS_H

#include <stdbool.h>
#include <sys/types.h>

#include "descendants.h"

struct signals {
    int number;    /* of the file that shows them */
    pid_t command; /* 0 while none was started */
    bool ended;    /* the command has ended, */
    int status;    /* with this status of waitpid */
    bool left;     /* of what it has left, where that is adopted, something still runs */
    struct descendants descendants;
    unsigned received; /* how many have come that end programs, */
    int last;          /* and which one was the last */
};

/* Blocks the signals, which a file shows from then on; signals_close closes it. Those that gpioserve was started to
 * ignore stay ignored. False, and reported, where that fails. */
bool signals_open(struct signals *signals);
void signals_close(struct signals *signals);

/* Takes the signals that have come: hands them on to the command, or where it has ended to what it has left, and sees
 * whether these have ended. */
void signals_receive(struct signals *signals);

/* Whether the command has ended, and what it has left. */
bool signals_are_over(const struct signals *signals);

/* Ends the command and what it has left with SIGTERM, and what does not end within some seconds with SIGKILL. */
void signals_end_command(struct signals *signals);

#endif
