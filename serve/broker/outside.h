/* Statements of the outside world: those that clients say, and those that are said at a program's call. */
#ifndef OUTSIDE_H
#define OUTSIDE_H

#include <stdbool.h>
#include <stddef.h>

#include "broker.h"

/* What came of a statement. */
struct said {
    bool is_none; /* it is no statement, or none that may be said */
    int error;    /* the error's number, 0 where it was done */
    char *text;   /* what it printed, ended by a zero; NULL where memory is short */
    size_t length;
};

/* Says a statement of `length` bytes, ended by a zero, and settles what came of it. said_free frees the text. False
 * where the served program has ended. */
bool outside_say(struct broker *broker, const char *line, size_t length, struct said *said);

void said_free(struct said *said);

#endif
