/* Programs that the broker starts. */
#ifndef PROCESS_H
#define PROCESS_H

#include <stdbool.h>
#include <sys/types.h>

/* Makes two pipes that aren't handed on to programs. False, with errno, where they can't be made. */
bool process_pipes(int in[2], int out[2]);

/* Starts the program of `words`, looked for on the PATH, with no signal blocked, and SIGPIPE as a program finds it at
 * first. With `environment` it gets that, the standard streams and the process group of the broker; without, it gets
 * `in` and `out` as standard input and output and a session of its own, so that a terminal's signals don't reach it. 0
 * and the process, or the error's number. */
int process_start(pid_t *pid, char *const *words, int in, int out, char *const *environment);

/* Waits for the end of a program with a session of its own: with `patient` for at most five seconds. A program that has
 * not ended by then is killed, with its process group. Its status as waitpid gives it. */
int process_wait(pid_t pid, bool patient);

#endif
