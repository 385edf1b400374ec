/* A mounted file system whose calls this process answers. There is one at most. */
#ifndef MOUNT_H
#define MOUNT_H

#include <stdbool.h>
#include <sys/types.h>

struct broker;

/* What was missing when this program was built, and what helps; NULL where nothing was. */
const char *mount_missing(void);

/* Mounts it at a folder, and returns the descriptor at which requests wait; -1 where that fails. `why` gets what the
 * library says then. */
int mount_begin(struct broker *broker, const char *folder, const char **why);

/* Reads one request, and answers it. False where it is no longer mounted. */
bool mount_answer(struct broker *broker);

/* The process whose request is being answered. */
pid_t mount_process(void);

/* Unmounts it, and frees all. */
void mount_end(void);

#endif
