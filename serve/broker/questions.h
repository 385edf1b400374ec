/* What is answered to a client's question. */
#ifndef QUESTIONS_H
#define QUESTIONS_H

#include "broker.h"

/* Answers the question in the broker's packet. False where the served program has ended; a client that doesn't take its
 * answer is no fault of that kind: its connection is ended. */
bool questions_answer(struct broker *broker, struct client *client);

/* The most bytes that a read gives. */
#define QUESTIONS_READ_MOST 49152

/* Reads what the machine has for a file, at most `room` bytes, at the time at which its clock stands. The error's
 * number, or 0 and how many bytes there are. */
int questions_read(
    struct broker *broker, const struct file *file, uint32_t room, unsigned char *bytes, uint32_t *count);

#endif
