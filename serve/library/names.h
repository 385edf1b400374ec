/* Names in /dev and /sys that lead to chips. */
#ifndef NAMES_H
#define NAMES_H

#include <stdbool.h>
#include <sys/stat.h>

/* The most bytes of a path in the broker's folder, with its end. The program's thread may have a small stack, so a
 * longer name is none that stands there. */
#define NAMES_ROOM 512

/* The path that is looked at in place of this one, seen from the folder `from` (AT_FDCWD: the working directory): in
 * the broker's folder, written to `room`, or the path itself. `*chip` is the number of the chip that the name is the
 * name of, however it is spelled, or -1. A link at its end isn't followed. The path may be any address. */
const char *names_seen(int from, const char *path, char room[NAMES_ROOM], int *chip);
/* The same, for those who need no number. */
const char *names_moved(int from, const char *path, char room[NAMES_ROOM]);

/* Where a call has just failed, as errno says, since a name leads nowhere or to what is another's: the number of the
 * chip that it is a link to, or to a link to; else -1. errno stays as it was. */
int names_behind(int from, const char *path);
/* The number of the chip that a link leads to, or -1. */
int names_linked_chip(int from, const char *path);

/* The same as names_moved of a folder that is to be listed, where /dev is one of them, however it is spelled. */
const char *names_moved_folder(int from, const char *path, char room[NAMES_ROOM]);

/* Whether what was looked at is the folder /dev. */
bool names_is_dev(const struct stat *status);
/* Writes the path of the folder that is listed in place of /dev. False where there is none. */
bool names_dev(char room[NAMES_ROOM]);

/* Whether a path is empty, so that a call with AT_EMPTY_PATH is about the file itself. */
bool names_is_empty(const char *path);

/* To be called before a folder is listed or entered: where gpio-sim's file system can be shown, it is shown then. */
void names_enter(int from, const char *path);

/* Takes the broker's folder off the front of a path, in place, so that it is the one that the program knows. */
void names_move_back(char *path);

/* To be called once the working directory may be another one. */
void names_note_folder(void);

/* Writes the path of a chip's file in the broker's folder. */
void names_node(int chip, char room[NAMES_ROOM]);

#endif
