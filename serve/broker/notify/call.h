/* A system call of a program that waits until it is answered, as the kernel notifies of it. */
#ifndef CALL_H
#define CALL_H

#include <linux/seccomp.h>
#include <stdatomic.h>
#include <stdbool.h>
#include <stddef.h>
#include <stdint.h>
#include <sys/types.h>

#include "../../wire.h"

/* Bytes of a notification, at most: a later kernel may have longer ones. */
#define CALL_SPACE 256

/* Bytes of a command's structure, at most. */
#define CALL_STRUCTURE 592

/* Who has a call. The process that stands by looks at this once the broker is gone. */
enum call_state {
    CALL_FREE,     /* no call stands here */
    CALL_RECEIVED, /* a receiver waits for one, or looks at it */
    CALL_HANDED_ON /* the broker's loop answers it */
};

/* What the loop has to do for a call. */
enum call_task {
    CALL_OPEN_CHIP,
    CALL_COMMAND,
    CALL_READ,
    CALL_STATUS,
    CALL_STATUS_EXTENDED,
    CALL_TREE /* a receiver has the call, and waits until gpio-sim's file system is shown */
};

/* Whether gpio-sim's file system is shown. */
enum call_tree { CALL_TREE_UNKNOWN, CALL_TREE_SHOWN, CALL_TREE_HIDDEN };

struct call {
    union {
        struct seccomp_notif notification;
        unsigned char space[CALL_SPACE];
    };
    atomic_int state;
    atomic_int thread; /* the receiver that has it; 0: none */
    int listener;      /* where it came from, and its answer goes to */
    atomic_bool answered;
    enum call_task task;
    unsigned chip;      /* of an opening, */
    int flags;          /* and its flags */
    uint64_t structure; /* where the structure of a command stands in the program's memory */
    size_t length;      /* its bytes, */
    bool is_read;       /* which could be read */
    unsigned char bytes[CALL_STRUCTURE];
    uint64_t result;     /* where the result of a status goes to */
    enum wire_tree need; /* why gpio-sim's file system is needed, */
    enum call_tree tree; /* and what came of it */
};

/* Whether a notification of this kernel has room in a call. */
bool call_fits(void);

/* Waits for the next call. False where none came: with ENOENT one was ended by a signal, or there is no program left.
 */
bool call_receive(struct call *call, int listener);

/* Whether there is a program that could call. */
bool call_has_callers(int listener);

/* Whether the program still waits for the answer. What was learnt of its process before that was its own. */
bool call_is_waiting(const struct call *call);

/* An argument of the call. */
uint64_t call_argument(const struct call *call, int which);

/* Reads the program's memory. How many bytes, at most `length`; or -1 with errno. */
ssize_t call_read(const struct call *call, uint64_t from, void *bytes, size_t length);

/* Writes to the program's memory. Whether all was written, and to the memory of the process that waits. */
bool call_write(const struct call *call, uint64_t to, const void *bytes, size_t length);

/* Reads a name in the program's memory, with its end. 0, or the error's number. */
int call_read_name(const struct call *call, uint64_t from, char *name, size_t size);

/* Reads what one of the process's open files is: `pipe:[NUMBER]`, or a path. False where there is no such file. */
bool call_file_text(const struct call *call, int file, char *text, size_t size);

/* The number of the pipe that one of the process's open files is; 0 where it is no pipe. */
uint64_t call_pipe_of(const struct call *call, int file);

/* Answers. Each answers at most once, and does nothing where the program is gone. */
void call_return(struct call *call, int64_t result);
void call_fail(struct call *call, int error);
/* Returns 0 where the bytes were written to the program's memory, else fails with EFAULT. */
void call_return_bytes(struct call *call, uint64_t to, const void *bytes, size_t length);
/* Lets the kernel do the call as if nobody had been notified of it. */
void call_continue(struct call *call);
/* Gives the program a copy of a file, which stays the caller's, with these flags of an opening, as the call's result.
 */
void call_return_file(struct call *call, int file, int flags);
/* Answers by what the broker answered to the question that was made of the call. */
void call_respond(struct call *call, const struct answer *answer, const void *data, int file);

#endif
