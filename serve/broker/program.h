/* What the program of a command is. */
#ifndef PROGRAM_H
#define PROGRAM_H

#include <limits.h>
#include <stdbool.h>

/* Why the library can't be preloaded into a program. */
struct obstacle {
    const char *what;   /* as `is linked statically` */
    const char *advice; /* what to do */
    bool to_all;        /* the kernel's notification doesn't help either */
};

/* The path of a program that is looked for as a shell does. False where there is none. */
bool program_find(const char *word, char path[PATH_MAX]);

/* What stands in the way of the library in the program at that path; NULL where nothing does, or nothing can be seen.
 * Of a script `path` becomes that of the interpreter that it is about. */
const struct obstacle *program_obstacle(char path[PATH_MAX]);

#endif
