/* The programs' calls that the machine answers, counted from 1; and what is said at some of them: fault injection.
 *
 * A call is an opening of a chip, a command or a read, of a file whose chip is there. The driver is asked for a command
 * that requests lines, configures them, or gets or sets their values, where the machine has not refused it before. */
#ifndef CALLS_H
#define CALLS_H

#include <stdbool.h>
#include <stdint.h>

#include "output.h"

struct broker;

/* Statements that are planned, at most. */
#define CALLS_PLANNED 64
/* The longest text of a call. */
#define CALLS_TEXT 96

enum calls_side { CALLS_BEFORE, CALLS_AFTER };

/* A statement that is said at a call. */
struct planned {
    enum calls_side side;
    uint64_t call;
    bool onwards;          /* at each later call as well */
    uint64_t delay;        /* and so many milliseconds later */
    const char *statement; /* the user's */
    bool waits;            /* its time comes: it is said */
    uint64_t until;        /* at this time of CLOCK_MONOTONIC, in nanoseconds */
};

struct calls {
    struct planned planned[CALLS_PLANNED];
    size_t count;
    uint64_t fault; /* the driver call that fails, or 0 */
    bool faults_on; /* each later one fails as well */
    struct output log;
    uint64_t made, driven; /* calls of programs, and of them those that the driver was asked for */
    char text[CALLS_TEXT]; /* the call that goes on */
    bool drives;           /* the driver may be asked for it */
};

/* Plans a statement at a call, which is named by `N`, `N+`, or either with `:TIME`. False, and reported, where that is
 * wrong. The statement stays the caller's. */
bool calls_plan(struct calls *calls, enum calls_side side, const char *call, const char *statement);

/* Plans that the driver call of that number, `N` or `N+`, fails. */
bool calls_plan_fault(struct calls *calls, const char *call);

/* Before the question in the broker's packet is answered, and after it was answered with that error's number: says what
 * is planned there. Questions that are no calls are passed over. False where the served program has ended, as for
 * calls_tick. */
bool calls_begin(struct broker *broker);
bool calls_end(struct broker *broker, int error);

/* Says what was planned for later, and whose time has come. */
bool calls_tick(struct broker *broker);

/* How long the loop may wait for them: milliseconds, or -1. */
int calls_time(const struct broker *broker);

#endif
