/* Lists of actions: what a file of them says, before any is made. */
#ifndef LIST_H
#define LIST_H

#include <stdbool.h>
#include <stddef.h>

enum verb { MKDIR, RMDIR, WRITE, READ, CHIP, PUT, GET, OPEN, IOCTL, EVENTS, POLL, CLOSE, SLEEP };

enum { NO_NAME = -1, NAMES_MOST = 128, THREADS_MOST = 8, TIMES_MOST = 100000 };

/* One action. What its verb has no use for is zero, NULL or NO_NAME. */
struct action {
    enum verb verb;
    const char *path;  /* below gpio-sim's folder of configfs; of CHIP: DEVICE/BANK; of PUT and GET: the line's file */
    const char *value; /* what is written, as it stands in the list */
    int chip;          /* the number of a chip's name */
    int file;          /* the number of a file's name */
    int made;          /* the number of the name of the file that it makes */
    unsigned long number; /* a command, a length, milliseconds, or the offset of a line */
    unsigned char *bytes;
    size_t length;
};

/* Actions that are made one after another: by the list's own thread, or by another one beside the sections around it.
 */
struct section {
    const char *thread; /* its name, or NULL */
    struct action *actions;
    size_t count, capacity;
};

struct list {
    const char *name;
    unsigned long times; /* how often it is made: 0 where each of its results is printed, else its outcomes are */
    struct section *sections;
    size_t count, capacity;
};

struct lists {
    struct list *lists;
    size_t count, capacity;
};

/* Reads all lists of a file into `lists`, whose memory is kept up to the program's end. False where the text is none:
 * what is wrong is reported, with the file's name, line and column. */
bool lists_read(struct lists *lists, const char *file);

#endif
