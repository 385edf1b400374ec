/* The files that clients have: each is the reading end of a pipe, and the broker has the writing end.
 *
 * The pipe holds bytes exactly while the machine says that something can be read; where the kernel notifies of calls
 * these are the events themselves (notify/flow.h). When its last reader is gone, the
 * writing end shows an error. When the chip is gone the broker closes the writing end, so that the readers see it hung
 * up. */
#ifndef FILES_H
#define FILES_H

#include <stdbool.h>
#include <stddef.h>
#include <stdint.h>

#include "../uapi.h"
#include "consumer.h"
#include "record.h"
#include "watch.h"

/* Whether a file has to be looked at, and what that is to do. */
enum file_look {
    LOOK_NONE,
    LOOK_TAKES, /* after a read: takes the bytes out where nothing is left */
    LOOK_WAKES  /* after something may have come: wakes an edge-triggered reader too */
};

struct moved;

struct file {
    struct watch watch; /* of the writing end; its number is -1 once the chip is gone */
    struct file *next;
    struct asker asker; /* who asked for it: its closing is recorded as that process's */
    uint64_t ino;
    enum file_kind kind;
    unsigned chip;
    bool awaits;    /* something may come to be read: edges, or a watch */
    bool debounces; /* and that when a deadline passes */
    enum file_look look;
    char name[16];
    size_t line_count; /* of a request */
    uint32_t lines[UAPI_LINES];
    char consumer[CONSUMER_ROOM];
    unsigned version;                       /* of a chip's file: of the uAPI of its first watch, or 0 */
    uint64_t watched[UAPI_CHIP_LINES / 64]; /* of a chip's file: a bit for each line */
    size_t capacity;                        /* items that wait in the pipe at most, where they stand there; */
    struct moved *moved;                    /* the lines of those that do, of a request; or NULL */
};

struct files {
    struct file *first;
    unsigned made; /* the number of the last name */
    size_t open;
    size_t touched; /* files that have to be looked at */
};

/* Makes a file. `reader` gets the reading end, which the caller owns. NULL, with errno, where there is no pipe for it.
 * The file is the list's, and freed by files_drop. */
struct file *files_make(struct files *files, enum file_kind kind, unsigned chip, int *reader);

/* The file with that number of its pipe, or NULL. */
struct file *files_find(const struct files *files, uint64_t ino);

/* The request of a program that has the line, or NULL. */
const struct file *files_request_of(const struct files *files, unsigned chip, uint32_t line);

/* Names of the broker's own files of chips, by which the lines are asked for that are reported to clients that observe:
 * this and the chip's number.
 */
#define FILES_OBSERVED "observed."

/* Whether a word is of the form that the broker's names of files have. */
bool files_is_name(const char *word, size_t length);

/* Closes the writing end, takes the file off the list, and frees it. */
void files_drop(struct files *files, struct file *file);

/* Shows its readers that the chip is gone. The file stays, so that its questions are answered. */
void files_hang_up(struct files *files, struct file *file);
bool files_is_gone(const struct file *file);

/* Begins or ends the watch of a line by a chip's file. */
void files_watch(struct file *file, uint32_t line, bool watched);
bool files_is_watched(const struct file *file, uint32_t line);

/* The next file that has to be looked at, and for what; from now on it hasn't. NULL where there is none. */
struct file *files_next_touched(struct files *files, enum file_look *look);

/* Shows its readers that there is something to read, or that there is nothing. `again`: more may have come since the
 * last time, which an edge-triggered reader has to see. */
void files_show(struct file *file, bool readable, bool again);
/* Whether its readers see something to read. */
bool files_shows(const struct file *file);

void files_free(struct files *files);

#endif
