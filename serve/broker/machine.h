/* The served program: lines go in, and each is answered. */
#ifndef MACHINE_H
#define MACHINE_H

#include <stdbool.h>
#include <stddef.h>
#include <sys/types.h>

#include "patience.h"
#include "record.h"

/* The longest line that is answered. */
#define MACHINE_LINE 8192
/* Lines that may wait for their answers. */
#define MACHINE_WAITING 64

struct machine_line {
    size_t at, length; /* in `lines` */
    bool kept;         /* in the record */
};

struct machine {
    pid_t pid;
    int to, from;
    const struct patience *patience;
    struct record *record;
    char *lines; /* those that were put since all were answered */
    size_t lines_length, lines_room, lines_sent;
    struct machine_line unanswered[MACHINE_WAITING];
    size_t put, taken;
    char *input; /* what was read and isn't taken yet */
    size_t input_at, input_length, input_room;
    char *text; /* the last answer, ended by a zero */
    size_t length, text_room;
    bool refused;           /* the last line was no statement; the text is `refused LINE COLUMN KIND` */
    bool ended;             /* nobody answers any more */
    bool garbled;           /* what came last is no answer */
    enum patience_end hung; /* why its answer was no longer waited for; else PATIENCE_READY */
    unsigned heeded;        /* signals that had come when it was last seen to go on */
};

/* Starts the program with these words. What is waited for it is bounded by `patience`, which stays the caller's, as
 * `record` does. False, and reported, where it can't be started. */
bool machine_start(struct machine *machine, char *const *words, struct record *record, const struct patience *patience);

/* Puts a line, which is copied; it has no line end. With `kept`, the record gets it where it is accepted, and its text.
 * At most MACHINE_WAITING lines may wait. */
void machine_put(struct machine *machine, const char *line, size_t length, bool kept);
void machine_putf(struct machine *machine, const char *form, ...) __attribute__((format(printf, 2, 3)));

/* Sends what was put, and takes the answer to the earliest line that waits. False where the program has ended, or does
 * not answer in time. The text is valid up to the next call. */
bool machine_take(struct machine *machine);

/* The name of an error that the machine answers, as `ENODEV`; `?` of any other. */
const char *machine_error_name(int error);

/* The number of the error that the last text is, 0 where it is none; EINVAL for a refused line. */
int machine_error(const struct machine *machine);

/* The same for the text of any statement: also where all of it is a tool's line `TOOL: ERROR` or `TOOL: usage`, which
 * counts as EINVAL. */
int machine_error_of_statement(const struct machine *machine);

/* Ends the input, waits for the program's end, and frees all. A program that hangs is killed. Its status as waitpid
 * gives it. */
int machine_end(struct machine *machine);

#endif
