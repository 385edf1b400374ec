/* A turn: a statement with the clock before it, and then all that it may have brought about. */
#ifndef TURN_H
#define TURN_H

#include "broker.h"

/* What the next statement does, so that the files that it can touch are looked at with it: it changes the level of a
 * line; it requests, releases or configures lines; or it is one of which not more is known. */
/* The same for all that show levels and holders: the next statement may change those of this line. */
void turn_changes(struct broker *broker, unsigned chip, uint32_t line);
void turn_pulls(struct broker *broker, unsigned chip, uint32_t line);
void turn_requests(struct broker *broker, unsigned chip, const uint32_t *lines, size_t count);
void turn_does_any(struct broker *broker);

/* Says a line, after the clock where that is the system's. The machine has the answer. False where the served program
 * has ended, as for all functions here. turn_settle has to come after it, and before anything else is asked. */
bool turn_say(struct broker *broker, const char *line, size_t length, bool kept);

/* The same without the clock: at the time at which it stands. What was looked at before is taken already. */
bool turn_say_at_once(struct broker *broker, const char *line, size_t length, bool kept);

/* Looks which files have something to read, and what is due next. With `chips`, chips may have come or gone: which
 * files are hung up, and which chips there are. */
bool turn_settle(struct broker *broker, bool chips);

/* Sets the clock alone, and settles what came of it. */
bool turn_tick(struct broker *broker);

/* Closes the files that no client has any more, and settles what came of it. A file that was closed before a question
 * was asked is closed by this once the question was read. */
bool turn_close_ended(struct broker *broker);

/* How long the loop may wait: milliseconds up to the next deadline, or -1. */
int turn_wait(const struct broker *broker);

#endif
