/* Makes lists, and prints what came of them. */
#ifndef RUN_H
#define RUN_H

#include "list.h"

struct run_options {
    unsigned long times; /* how often lists are made that are made several times; 0: as often as they say */
    unsigned long pause_microseconds; /* after each put and each close */
    unsigned long limit_seconds;      /* of one making of a list; then the program ends with status 4 */
};

/* Makes a list, or makes it several times, and prints its name and its results, or its outcomes. */
void run_list(const struct list *list, const struct run_options *options);

#endif
