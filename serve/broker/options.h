/* The arguments. */
#ifndef OPTIONS_H
#define OPTIONS_H

#include <stdbool.h>

#include "calls.h"

/* How the command's calls come to the broker. */
enum way {
    WAY_EITHER,  /* by the library where it can be preloaded into the command, else by notification */
    WAY_LIBRARY, /* the library takes them over */
    WAY_NOTIFY   /* the kernel notifies of them */
};

struct options {
    const char *board, *transcript, *answers, *waves, *folder, *served, *calls; /* or NULL */
    bool manual;
    struct calls plan; /* what is said at the programs' calls */
    bool each;         /* a new machine begins when all has gone */
    bool sys;          /* the command has gpio-sim's file system at /sys */
    unsigned limit;    /* seconds in which the served program has to answer; 0: none */
    bool daemons;      /* what the command leaves behind is waited for */
    enum way way;
    bool exact;       /* of the kernel's notification: reads and the status of open files too */
    bool environment; /* no command: the variables are printed */
    char **command;   /* and its arguments; NULL with `environment` */
};

/* What to do after the arguments were read. */
enum options_next { OPTIONS_RUN, OPTIONS_HELP, OPTIONS_VERSION, OPTIONS_WRONG };

/* Reads the arguments, which the options refer to. What is wrong is reported; help is printed. */
enum options_next options_read(struct options *options, int count, char **words);

#endif
