/* A command in a name space of its own, in which gpio-sim's file system stands at /sys for every program. */
#ifndef NAMESPACE_H
#define NAMESPACE_H

#include <sys/types.h>

/* Starts a program, looked for on the PATH, where /sys is the broker's mounted `view/sys`, with all else that the
 * system has there. For a user other than root that takes a user name space. The broker has to answer meanwhile: what
 * fails in the new process is reported by it, and its status is then one of report.h. 0 and the process, or the error
 * number. */
int namespace_start(pid_t *pid, char *const *words, const char *folder, char *const *environment);

#endif
