/* The way by the kernel's notification: the command runs under a seccomp filter, the kernel notifies the broker of
 * system calls that may concern chips, and the broker answers them. Receivers, which are threads, let pass what doesn't
 * concern it; the rest goes to the loop. */
#ifndef NOTIFY_H
#define NOTIFY_H

#include <pthread.h>
#include <stdatomic.h>
#include <stdbool.h>
#include <sys/types.h>

#include "../broker.h"
#include "call.h"

/* Calls at a time: those that receivers look at, and those that wait for the loop. */
#define NOTIFY_CALLS 255

/* The calls, in memory that is shared with the process that stands by. */
struct notify_calls {
    struct call list[NOTIFY_CALLS];
};

struct notify {
    bool exact;          /* reads and the status of open files are notified of too */
    int listener;        /* where calls come from the kernel; -1: nowhere yet */
    pid_t standby;       /* the process that stands by */
    int handed_to;       /* a byte written here, a call's place in the list, hands it on to the loop */
    struct watch handed; /* the other end */
    struct notify_calls *calls;
    const char *home;     /* the broker's folder */
    atomic_bool is_over;  /* nobody answers what would be handed on */
    atomic_int receivers; /* threads, */
    atomic_int idle;      /* and how many of them wait for a call */
    atomic_uint taken;    /* calls that they have taken */
    atomic_bool has_no_callers, watcher_sleeps;
    atomic_int tree; /* what is known of gpio-sim's file system */
    pthread_mutex_t lock;
    pthread_cond_t tree_was_shown; /* a receiver waits here until it is, or the loop is over; */
    pthread_cond_t call_was_taken; /* and the thread that watches receivers here */
};

/* What is known before the command starts. */
void notify_prepare(struct notify *notify, const struct home *home, bool exact);

/* Begins to receive calls. False, with errno, where that can't be. */
bool notify_receive(struct notify *notify);

/* Fails the calls that were handed on, and those that will be, with ENODEV: a program that waits for an answer receives
 * no signal. */
void notify_end(struct broker *broker);

/* Answers a call that was handed on. False where the served program has ended. */
bool notify_take(struct broker *broker);

/* The thread for which a receiver, by its number, answers a call in gpio-sim's file system; any other process itself.
 */
pid_t notify_caller(const struct broker *broker, pid_t process);

#endif
