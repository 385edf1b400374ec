/* Clients that wait. What they wait for is looked at after each statement, so nothing that held in between is missed.
 */
#ifndef WAITS_H
#define WAITS_H

#include <stdbool.h>
#include <stddef.h>
#include <stdint.h>

#include "../wire.h"
#include "wait.h"

struct broker;
struct client;

/* What happened since the broker began. */
struct counts {
    bool known[WIRE_CHIPS]; /* chips that came */
    uint64_t opened[WIRE_CHIPS];
    uint64_t read[WIRE_CHIPS][WAIT_LINES]; /* events */
};

/* Counts an event of that line that a program has read. */
void waits_count_read(struct broker *broker, unsigned chip, uint32_t line);

/* Answers a request to wait: at once where it is met, can't be or is none; else the client waits, and none of its
 * further requests is read. False where the served program has ended, as for waits_look. */
bool waits_begin(struct broker *broker, struct client *client, const char *line);

/* Answers those whose wait is met, or can't be any more. */
bool waits_look(struct broker *broker);

/* Answers those whose time is over. */
bool waits_expire(struct broker *broker);

/* How long the loop may wait for them: milliseconds, or -1. */
int waits_time(struct broker *broker);

#endif
