/* What the broker says on standard error, and the statuses that are its own. */
#ifndef REPORT_H
#define REPORT_H

enum status {
    STATUS_SERVED_DIED = 124, /* the served program ended before the command */
    STATUS_OWN = 125,         /* the broker couldn't begin: arguments, board, folder, served program */
    STATUS_NOT_RUN = 126,     /* the command can't be run, or not with the library */
    STATUS_NOT_FOUND = 127,   /* there is no such command */
    STATUS_SIGNAL = 128       /* and a signal's number: that signal ended it */
};

/* Prints `gpioserve: ` and the text in a line of its own. */
void report(const char *form, ...) __attribute__((format(printf, 1, 2)));

#endif
