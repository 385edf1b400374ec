/* Requests of the outside world that stand for many statements, or for one whose numbers only the broker knows:
 * `burst COUNT` and `pass TIME`. */
#ifndef BURST_H
#define BURST_H

#include <stdbool.h>
#include <stdint.h>

#include "broker.h"

/* Changes of each line in one burst, at most. */
#define BURST_MOST 100000

enum burst_kind {
    BURST_NONE,    /* a statement, or nothing that can be said */
    BURST_CHANGES, /* `burst COUNT`: each line whose edges a program awaits changes so many times */
    BURST_PASSES,  /* `pass TIME`: the manual clock goes on by so many nanoseconds */
    BURST_WRONG    /* one of both that is not of its form */
};

/* Reads such a line, and its number. */
enum burst_kind burst_read(const char *line, uint64_t *number);

/* Why a line is wrong, as the text of a refusal. */
extern const char burst_refusal[];

/* Changes the level of each line whose edges a program awaits so many times, by pulls, each of which stands in the
 * transcript. A line that was changed an even number of times has its pull again. False where the served program has
 * ended. */
bool burst_say(struct broker *broker, uint64_t changes);

#endif
