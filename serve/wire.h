/* What a client and the broker say to each other over the socket: see README.md, "The socket".
 * A question and its answer are one packet each, a head of 24 bytes and then `length` bytes. */
#ifndef WIRE_H
#define WIRE_H

#include <fcntl.h>
#include <stdint.h>

/* The environment variable that names the broker's folder, and the socket's name in it. */
#define WIRE_VARIABLE "GPIOSERVE"
#define WIRE_SOCKET "socket"

/* Flags of the reading end of a file's pipe, which mean nothing there: the file was opened for reading, and for
 * writing. Each file has at least one of them, by which it is told from pipes of others. */
#define WIRE_READS O_APPEND
#define WIRE_WRITES O_DIRECT

/* The most bytes that follow a head. */
#define WIRE_DATA 65536

/* The device number that chips show: WIRE_MAJOR, and the chip's number as the minor one. */
#define WIRE_MAJOR 254
#define WIRE_MAJOR_TEXT "254"

/* Chips have numbers below this one. */
#define WIRE_CHIPS 64

enum wire_op {
    WIRE_OPEN = 1, /* opens the chip `command`; its file comes with the answer */
    WIRE_IOCTL,    /* the command `command` on the file `ino`, with the structure's bytes */
    WIRE_READ,     /* reads at most `command` bytes of the file `ino` */
    WIRE_SAY,      /* a statement; what it printed are the answer's bytes */
    WIRE_WHOSE,    /* is the file `ino` one of the broker's? */
    WIRE_TREE      /* shows gpio-sim's file system, where it isn't shown yet; `command`: one of wire_tree */
};

/* Why a program needs gpio-sim's file system. */
enum wire_tree {
    WIRE_TREE_SEARCHES, /* it looks whether there is one: a list of mounts */
    WIRE_TREE_USES      /* it uses a name of it; where it can't be shown, the broker says why, once */
};

struct question {
    uint32_t op;
    uint32_t command;
    uint64_t ino; /* of the pipe that stands for the file */
    uint32_t length;
    uint32_t zero;
};

struct answer {
    int32_t found;    /* 0, or -1: the file is none of the broker's; what was said is no statement */
    int32_t error;    /* the error's number, or 0 */
    uint32_t in_file; /* 1: the bytes are those of the file that came with this answer; `length` counts them */
    uint32_t fd_at;   /* where in the bytes the number of the file that came has to stand */
    uint32_t length;
    uint32_t chip; /* 1 and the chip's number, where the file is a chip's; else 0 */
};

_Static_assert(sizeof(struct question) == 24, "a question's head has 24 bytes");
_Static_assert(sizeof(struct answer) == 24, "an answer's head has 24 bytes");

#endif
