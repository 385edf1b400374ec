/* The broker's socket spoken to past the library: questions of any form, and answers as they come. */
#ifndef RAW_H
#define RAW_H

#include <stdbool.h>
#include <stddef.h>
#include <sys/types.h>

#include "../wire.h"

/* An answer as it came. */
struct raw {
    struct answer head;
    unsigned char data[WIRE_DATA];
    long length; /* of head and data; 0 where the connection is at its end, -1 with errno where nothing can be had */
    int file;    /* that came with it, which the caller owns; -1 where none did */
};

/* A connection to the broker, which the caller closes; -1 where there is none. */
int raw_connect(void);

/* Sends a head and so many bytes, whatever the head says of them, in one packet. Whether it went out whole. */
bool raw_send(int connection, const struct question *question, const void *data, size_t length);
/* The same with so many copies of a file, at most RAW_FILES. */
#define RAW_FILES 16
bool raw_send_files(int connection, const struct question *question, int file, size_t count);

/* Waits for an answer. */
void raw_receive(int connection, struct raw *raw);

/* Sends a question of this operation about a file, or of none, without bytes, and waits for its answer: the number of
 * its error, or -1 where the connection is at its end. */
int raw_ask(int connection, enum wire_op op, uint64_t ino);

/* The process that listens. */
pid_t raw_broker(int connection);

/* How many files the broker has; -1 where that can't be seen. */
int raw_count_of_broker(void);

#endif
