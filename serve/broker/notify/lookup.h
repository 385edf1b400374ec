/* Names as a program says them, and where they stand in the broker's folder. */
#ifndef LOOKUP_H
#define LOOKUP_H

#include <limits.h>
#include <stdbool.h>
#include <sys/types.h>

/* Where a name leads. */
struct lookup {
    bool ours;           /* it stands in the broker's folder, */
    char path[PATH_MAX]; /* at this path */
    int chip;            /* the number of the chip whose file it is, or -1 */
    bool is_dev;         /* it is the folder /dev itself */
    bool is_tree;        /* gpio-sim's file system alone has it: it is the broker's only where that is shown */
    bool is_shared;      /* it is in a folder of chips, which has more in it where that file system is shown */
    bool in_view;        /* the path leads into that file system */
    int error;           /* of a name of the broker's that leads nowhere: the error's number; else 0 */
};

/* The names of a process, and the broker's folder. */
struct lookup_from {
    const char *home; /* the broker's folder */
    pid_t process;
    int folder;      /* the open folder that names are relative to; AT_FDCWD: the working directory */
    bool shows_tree; /* gpio-sim's file system is shown in the broker's folder */
};

/* Looks at a name. With `follow`, a link at its end is followed once, as far as a name of the broker's. */
void lookup_name(struct lookup *lookup, const struct lookup_from *from, const char *name, bool follow);

/* Takes the broker's folder off the front of a path, in place, so that it is the one that the program knows. */
void lookup_hide_home(const char *home, char *path);

#endif
