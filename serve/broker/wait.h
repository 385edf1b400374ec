/* A request to wait until something holds, as text. */
#ifndef WAIT_H
#define WAIT_H

#include <stdbool.h>
#include <stdint.h>

#include "consumer.h"

/* Lines that a chip has, at most. */
#define WAIT_LINES 512

enum wait_kind {
    WAIT_NOTHING,
    WAIT_HELD,     /* a program's request has the line */
    WAIT_RELEASED, /* none has it */
    WAIT_LEVEL,    /* the line has the level `number` */
    WAIT_READ,     /* programs have read `number` events of the line */
    WAIT_OPENED,   /* programs have opened the chip `number` times */
    WAIT_CHANGED   /* something has changed since the client was answered last */
};

struct wait {
    enum wait_kind kind;
    unsigned chip;
    uint32_t line; /* not of WAIT_OPENED, as the chip isn't of WAIT_CHANGED */
    uint64_t number;
    char holder[CONSUMER_ROOM]; /* of WAIT_HELD: the consumer, or empty where any will do */
    uint64_t limit;             /* how long, in milliseconds */
    uint64_t until;             /* and so until this time of CLOCK_MONOTONIC, in nanoseconds */
};

/* Whether a line is a request to wait: its first word is `wait`. */
bool wait_is(const char *line);

/* Reads such a line, except for `until`. NULL, or why it is none, as the text of a refusal. */
const char *wait_read(struct wait *wait, const char *line);

#endif
