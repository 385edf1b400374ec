/* The system calls that take a name: what each does with it, and where its arguments stand. The filter and the
 * supervisor share this table. */
#ifndef OPERATIONS_H
#define OPERATIONS_H

#include <stddef.h>

/* What a call does with its name. */
enum operation_kind {
    OPERATION_OPEN,
    OPERATION_STATUS,          /* stat and its kin */
    OPERATION_STATUS_EXTENDED, /* statx */
    OPERATION_ACCESS,
    OPERATION_LINK,       /* reads the text of a link */
    OPERATION_ATTRIBUTE,  /* reads one extended attribute */
    OPERATION_ATTRIBUTES, /* lists extended attributes */
    OPERATION_MAKE,       /* makes what it names: a folder, a link or a device */
    OPERATION_CHANGE,     /* removes or changes what it names */
    OPERATION_MOVE,       /* gives a file a second name */
};

/* An argument that a call doesn't have. */
#define OPERATION_NONE (-1)

/* A call, and the places of its arguments, from 0 on. */
struct operation {
    int number; /* of the system call */
    enum operation_kind kind;
    int folder; /* the open folder that the name is relative to; OPERATION_NONE: the working directory */
    int name;
    int flags;  /* OPERATION_NONE: those of `fixed`. openat2 has the address of a structure there */
    int fixed;  /* flags of a call that has no argument for them */
    int detail; /* the memory that the result goes to, the mode of an access check, or the second name, which has its
                   folder before it where the first one has; OPERATION_NONE for the others */
};

/* All of them, each call once. */
extern const struct operation operations[];
extern const size_t operations_count;

/* The operation of a system call, or NULL where it takes no name. */
const struct operation *operation_of(int number);

#endif
