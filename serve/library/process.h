/* What each process has for itself, however it was made: by fork, `_Fork`, vfork or clone. */
#ifndef PROCESS_H
#define PROCESS_H

#include <stdbool.h>
#include <stdint.h>
#include <sys/types.h>

/* A process with memory of its own finds all of this zeroed when it begins, also where no handler of fork runs and
 * where another thread of its parent holds the lock. */
struct process {
    uint32_t lock;    /* of the connection */
    pid_t owner;      /* the process that the connection is of; 0 in one that has not asked yet */
    bool broker_gone; /* nobody listens at the socket any more */
};

/* What this process has; NULL where it runs in the memory of another one, as a child of vfork does, or where the system
 * can't zero memory for children. Then it asks over a connection for each time. */
struct process *process_own(void);

#endif
