/* Statements said to the broker by a client. */
#ifndef SAY_H
#define SAY_H

#include <stdbool.h>
#include <stddef.h>

struct say {
    int connection;
    char *text; /* what the last statement printed, ended by a zero; valid up to the next one */
    size_t length, room;
    bool is_none; /* what was said last is no statement; the text says why */
};

/* Connects to the broker of that folder; NULL: that of the environment. 0, or the error's number: ENOENT where no
 * broker is named. */
int say_open(struct say *say, const char *folder);

/* Says a statement. 0 where it was done; the error's number where it was answered by one, with its text, or is none,
 * which counts as EINVAL; -1 where nobody answers. */
int say_statement(struct say *say, const char *statement);

/* Whether a statement is a request to wait, as `wait held gpiochip0 3`. */
bool say_waits(const char *statement);

/* Ends the connection, and frees the text. */
void say_close(struct say *say);

#endif
