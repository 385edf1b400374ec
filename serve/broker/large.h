/* Answers that a packet has no room for: their bytes are handed over in a file. */
#ifndef LARGE_H
#define LARGE_H

#include <stdbool.h>
#include <stddef.h>

#include "../wire.h"

struct client;
struct clients;

/* Bytes that stand at most in files that clients have not taken. */
#define LARGE_MOST (64u << 20)

/* An answer's file, while it isn't known that the client has taken it. */
struct large {
    int file; /* or -1 */
    size_t length;
};

/* Hands over an answer with so many bytes. ENOMEM where there is no memory for them, or others have too many; another
 * number where the client doesn't take what it is sent, which one does who asks on with such an answer left untaken. */
int large_send(struct clients *clients, struct client *client, struct answer *answer, const void *data);

/* Frees what a client has not taken: it finds the file empty. */
void large_forget(struct clients *clients, struct client *client);

#endif
