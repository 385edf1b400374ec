/* The statements that were accepted last, for those who observe: a ring. */
#ifndef RECENT_H
#define RECENT_H

#include <stddef.h>
#include <stdint.h>
#include <sys/types.h>

/* Statements that are kept. */
#define RECENT_MOST 1024
/* Bytes of a statement that are kept, its end included, and of what it printed where that is one short line. */
#define RECENT_TEXT 160
#define RECENT_PRINTED 24
/* The bytes of a program's name, as the kernel keeps it, its end included. */
#define ASKER_NAME 16

/* Who asked for a line: a process, and its program's name, which is printable ASCII. A process of 0 is none. */
struct asker {
    pid_t pid;
    char name[ASKER_NAME];
};

struct recent_statement {
    struct asker asker;
    char text[RECENT_TEXT];
    char printed[RECENT_PRINTED]; /* empty where it was more than that */
};

struct recent {
    uint64_t count; /* of all statements since the broker began */
    struct recent_statement kept[RECENT_MOST];
};

/* Adds a statement; and notes what the last one printed. */
void recent_add(struct recent *recent, const struct asker *asker, const char *text, size_t length);
void recent_note_printed(struct recent *recent, const char *text, size_t length);

/* The statement of that number, from 0 on, which has to be one of the RECENT_MOST last ones. */
const struct recent_statement *recent_at(const struct recent *recent, uint64_t number);

#endif
