/* The connection to the broker: a question, and its answer. */
#ifndef ASK_H
#define ASK_H

#include <stdbool.h>
#include <stddef.h>

#include "../wire.h"

/* The broker's folder, from the environment; NULL where no broker runs this program, and then nothing is taken over.
 * The text lives as long as the process. */
const char *ask_home(void);

/* Asks. `sent` has `question->length` bytes. Bytes of the answer go to `got`, at most `room`. A file that comes goes to
 * `*file`, which the caller then owns, with its close-on-exec flag set where `cloexec` is; -1 where none comes. No
 * signal comes in between. errno stays as it was where it answers 0. Else the error's number: EFAULT where the
 * program's bytes can't be read or written, ENODEV where nobody answers. */
int ask(const struct question *question, const void *sent, struct answer *answer, void *got, size_t room, int *file,
    bool cloexec);

#endif
