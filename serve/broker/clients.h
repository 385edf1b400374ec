/* The clients' connections: a packet is a question, and its answer is one packet. */
#ifndef CLIENTS_H
#define CLIENTS_H

#include <stdbool.h>
#include <stddef.h>
#include <stdint.h>

#include "../wire.h"
#include "large.h"
#include "record.h"
#include "wait.h"
#include "watch.h"

/* Connections at a time, at most. */
#define CLIENTS_MOST 512

struct call;
struct observer;

struct client {
    struct watch watch; /* its number is -1 once the connection was ended */
    struct call *call;  /* a system call that waits for the answer, in the place of a connection; or NULL */
    struct client *next;
    struct clients *all;
    struct asker asker;        /* the process that made the connection */
    struct wait wait;          /* what it waits for; its requests aren't read meanwhile */
    struct observer *observer; /* what is reported to it, if it observes; or NULL */
    struct large large;        /* an answer that it may not have taken */
    int error;                 /* the error's number of the last answer */
    bool asks;                 /* it has asked more than whose a file is */
    bool costly;               /* the last answer to its process took long, */
    uint64_t served;           /* and this many such answers had been given by then */
};

struct clients {
    struct watch listener;
    struct client *first;
    struct client *ended; /* to be freed, once what was shown of them is passed over */
    size_t count, waiting;
    size_t untaken;  /* bytes of answers in files that may not have been taken */
    uint64_t served; /* costly answers */
};

/* A question as it came: its bytes are ended by a zero, which isn't counted. */
struct packet {
    struct question question;
    unsigned char data[WIRE_DATA + 1];
};

/* Listens at the socket of a folder. False, and reported, where it can't; clients_end frees what was taken. */
bool clients_listen(struct clients *clients, const char *folder);

/* Takes a new connection. Where there are too many, or no number is left, the oldest one is ended by which was asked
 * nothing but whose files are: processes that read pipes of their own ask that alone, and the library connects anew.
 * NULL where there is no connection, or it was ended, since there is no such other one or memory is short. The client
 * is the list's. */
struct client *clients_accept(struct clients *clients);

/* Reads one question. 1; 0 where none is there; -1 where the connection is at its end or what came is no question. */
int clients_read(struct client *client, struct packet *packet);

/* Keeps that a client's process was answered within so many nanoseconds. */
void clients_charge(struct client *client, uint64_t nanoseconds);

/* Sends an answer with `answer->length` bytes, and a file where `file` isn't -1, which stays the caller's. Bytes for
 * which a packet has no room are handed over in a file; where there is no memory for that, the answer is ENOMEM. A
 * client that doesn't take its answer would wait for it without end: its connection is ended, which clients_read then
 * says. */
void clients_reply(struct client *client, struct answer *answer, const void *data, int file);

/* Sends a packet. Whether the client's socket took it. */
bool clients_send(struct client *client, struct answer *answer, const void *data, size_t length, int file);

/* Ends a connection. The client is freed by clients_bury. */
void clients_drop(struct clients *clients, struct client *client);

/* Frees the clients whose connections were ended. */
void clients_bury(struct clients *clients);

/* Ends all, and no longer listens. */
void clients_end(struct clients *clients);

#endif
