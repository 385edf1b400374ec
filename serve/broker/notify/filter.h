/* The seccomp filter of a command: of which system calls the kernel notifies the broker. */
#ifndef FILTER_H
#define FILTER_H

#include <linux/filter.h>
#include <stdbool.h>

/* Steps of a filter, at most. */
#define FILTER_STEPS 128

struct filter {
    struct sock_filter steps[FILTER_STEPS];
    unsigned short count;
};

/* Writes the filter. With `exact`, reads and the status of open files are among the calls. */
void filter_write(struct filter *filter, bool exact);

/* Puts the filter on this process and on all that it will start. The file by which notifications come, which the caller
 * owns; or -1 with errno. */
int filter_install(bool exact);

#endif
