/* The board: the statements that are handed in before the command runs. */
#ifndef BOARD_H
#define BOARD_H

#include <stddef.h>

#include "broker.h"

struct board {
    const char *path; /* NULL where there is none */
    char *text;       /* ended by a zero */
    size_t length;
};

/* Reads the file at that path, which stays the caller's; NULL is a board without statements. board_free frees it.
 * False, and reported, where it can't be read. */
bool board_read(struct board *board, const char *path);

/* Begins the session, and hands in the statements of the board. One that begins with a header and `setup` may be a
 * board too. False, and reported with file, line and column, where a line is refused or a statement is answered by an
 * error. */
bool board_hand_in(struct broker *broker, const struct board *board);

void board_free(struct board *board);

#endif
