/* The commands of linux/gpio.h, of both versions, and what their structures have. */
#ifndef COMMANDS_H
#define COMMANDS_H

#include <stdbool.h>
#include <stddef.h>

/* Whose file it is. */
enum kind { OF_CHIP, OF_LINES, OF_HANDLE, OF_EVENT };

/* Whether a version has a command of that name, and its number. */
bool commands_named(int version, const char *name, unsigned long *command);

/* Whether a command makes a file: its kind, and where the descriptor stands in the structure. */
bool commands_make(unsigned long command, enum kind *kind, size_t *place);

/* The version whose changes a chip's file reports after this command; 0 where it begins no watch. */
int commands_watch(unsigned long command);

/* Of what is read from a file: how long one is, and where its time stands. `version` is that of a chip's watches. */
void commands_item(enum kind kind, int version, size_t *length, size_t *place);

#endif
