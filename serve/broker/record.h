/* What was handed in and what it printed: a session, and its output. */
#ifndef RECORD_H
#define RECORD_H

#include <stdbool.h>
#include <stddef.h>
#include <sys/types.h>

#include "output.h"
#include "recent.h"

struct record {
    struct output transcript, answers;
    struct asker asker; /* of the lines that are added from now on */
    struct asker shown; /* the one whose comment stands last in the transcript */
    struct recent recent;
};

/* Opens the files that are named; NULL names none. Recent statements stay. False, and reported, where one can't be
 * opened; record_close frees what was taken. */
bool record_open(struct record *record, const char *transcript, const char *answers, const struct patience *patience);

/* The process at the other end of a connected socket, and its name at this moment: `?` where it can't be had. */
struct asker asker_of(int connection);
/* The same of a process. */
struct asker asker_of_process(pid_t pid);

/* The process of a thread, and its name at this moment. */
struct asker asker_of_thread(pid_t thread);

/* Adds an accepted line, which is kept as a recent one too, before it the comment `# PID NAME` where another process
 * asks than before; and what a line printed. */
void record_line(struct record *record, const char *line, size_t length);
void record_text(struct record *record, const char *text, size_t length);

/* Hands on to the files what was added, so that others can read it. */
void record_flush(struct record *record);

/* Closes the files. False where something could not be written. */
bool record_close(struct record *record);

#endif
