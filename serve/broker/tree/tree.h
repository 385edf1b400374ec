/* What gpio-sim shows below /sys, over the statements of the served program: its configuration in configfs, pulls and
 * values of lines in sysfs, and the names by which a chip is found.
 *
 * Paths begin with `/` and are seen from /sys: `/kernel/config/gpio-sim`. Names of devices and banks are the caller's.
 * In the served program a device that was made here is `gpio-sim.K`, as `dev_name` shows it, and a bank `nodeJ`, so
 * that default labels are those of the driver. A device of the board or of gpiosay has the same name in both. */
#ifndef TREE_H
#define TREE_H

#include <stdbool.h>
#include <stddef.h>
#include <sys/stat.h>

#include "../../wire.h"

struct broker;
struct tree_device;

struct tree {
    struct tree_device *devices;      /* in the order of their making */
    unsigned line_counts[WIRE_CHIPS]; /* of the chips that are present; else 0 */
    bool has_system;                  /* the system's own entries of /sys are listed too, to be bound over */
};

/* The most bytes of an attribute: a page, as in configfs and sysfs. */
#define TREE_TEXT 4096

/* Each function with a path returns 0, or an error number: ENODEV where the served program has ended. Where it fails,
 * nothing has changed. */
int tree_stat(struct broker *broker, const char *path, struct stat *status);
int tree_mkdir(struct broker *broker, const char *path);
int tree_rmdir(struct broker *broker, const char *path);

/* Why a file can be neither made nor removed at that path. */
int tree_refuse_file(struct broker *broker, const char *path);

/* Reads an attribute whole, ended by a zero. */
int tree_read(struct broker *broker, const char *path, char text[TREE_TEXT]);

/* Writes an attribute by what one `write` gave, at most TREE_TEXT - 1 bytes. */
int tree_write(struct broker *broker, const char *path, const char *bytes, size_t length);

/* Reads where a link leads, ended by a zero. */
int tree_readlink(struct broker *broker, const char *path, char *text, size_t size);

/* Calls `add` for each name of a folder, except `.` and `..`. */
int tree_list(struct broker *broker, const char *path, void (*add)(void *to, const char *name), void *to);

/* Notes the chips and their numbers of lines by what `gpiodetect` printed. */
void tree_note_chips(struct tree *tree, const char *text);

/* Notes a statement of the board or of gpiosay that was carried out: devices, banks, lines and hogs that it made or
 * removed. */
void tree_note_statement(struct tree *tree, const char *line);

/* Frees the devices: there are none from then on. */
void tree_free(struct tree *tree);

#endif
