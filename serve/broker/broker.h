/* All that the broker knows while a command runs. */
#ifndef BROKER_H
#define BROKER_H

#include <stdbool.h>
#include <stdint.h>

#include "calls.h"
#include "clients.h"
#include "files.h"
#include "home.h"
#include "machine.h"
#include "observers.h"
#include "patience.h"
#include "record.h"
#include "renewal.h"
#include "show/show.h"
#include "signals.h"
#include "tree/tree.h"
#include "waits.h"
#include "waves.h"

struct notify;

/* Files whose state is asked for in one write: with the clock, a statement and the deadline. */
#define LOOKS_MOST (MACHINE_WAITING - 3)

/* What was asked for behind a statement, in the same write, and isn't taken yet. */
struct looks {
    struct {
        struct file *file;
        enum file_look look;
        char state; /* the answer's first letter */
    } asked[LOOKS_MOST];
    size_t count; /* of states of files */
    bool due;     /* the next deadline as well */
};

struct broker {
    struct signals signals;
    struct patience patience; /* for the served program, and for those who read what is written */
    struct record record;
    struct machine machine;
    struct home home;
    struct files files;
    struct clients clients;
    struct counts counts;
    struct observers observers;
    struct calls calls;
    struct waves waves;
    struct tree tree;
    struct show show;
    struct renewal renewal;
    struct watch served; /* the served program's end */
    int poller;          /* what the loop waits on: all except files, and `ends` */
    int ends;            /* shows the files that no client has any more */
    bool manual;         /* the clock is moved by statements alone */
    uint64_t now;        /* the machine's monotonic clock, as it was last set, */
    uint64_t real;       /* and its real clock, where statements alone set it */
    bool has_due;        /* a deadline is set in the machine, */
    uint64_t due;        /* at this time of that clock */
    bool asks_due;       /* the deadline may be another one by now */
    struct looks looks;
    struct packet packet;
    struct notify *notify; /* the kernel notifies of the command's calls; NULL: the library takes them over */
};

#endif
