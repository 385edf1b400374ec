/* The command that is run with the library. */
#ifndef COMMAND_H
#define COMMAND_H

#include <stdbool.h>
#include <sys/types.h>

struct notify;

/* What programs are given, so that they find the chips. */
struct command_view {
    struct notify *notify; /* the kernel notifies of their calls; NULL: the library takes them over */
    const char *library;   /* that is preloaded into them */
    const char *folder;    /* the broker's */
    bool has_tree;         /* gpio-sim's file system can be shown: modprobe and mountpoint answer so */
    bool has_sys;          /* it stands at /sys in a name space of the command's own; any program may be the command */
};

/* Starts the command with the variables of the view in its environment. 0 and the process; or, with what to do
 * reported, the status to end with. */
int command_start(pid_t *pid, char *const *words, const struct command_view *view);

/* Prints the variables by which a program finds the chips, `NAME=VALUE` in a line each, and then an empty line; and
 * closes the standard output, so that whoever reads it finds its end. False, and reported, where a value has a line end
 * or the lines can't be written. */
bool command_print_variables(const struct command_view *view);

#endif
