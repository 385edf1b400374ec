/* Receiving the packet of an answer, with the file that may come with it. */
#ifndef PACKET_H
#define PACKET_H

#include <stdbool.h>
#include <stddef.h>

#include "wire.h"

/* Where an answer goes. */
struct packet {
    struct answer *answer;
    void *data;  /* the bytes behind the head, for which there is room */
    size_t room; /* the number of these; may be 0 */
    int file;    /* the file that came, which the receiver owns; -1 where none came */
    bool is_cut; /* a file came for which this process has no number left */
};

/* Receives one packet; a file that comes is closed by `execve` where `cloexec`. Returns how many bytes came, the head's
 * among them; -1 and errno where the socket failed; 0 where the connection has ended or less than a head came. Then no
 * file is left open. A signal doesn't end it, and it is no point at which a thread is cancelled. */
long packet_receive(int socket, struct packet *packet, bool cloexec);

#endif
