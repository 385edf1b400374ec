/* A file that the user named and that gpioserve writes: a reader that does not read holds it up for some time alone. */
#ifndef OUTPUT_H
#define OUTPUT_H

#include <stdbool.h>
#include <stdio.h>

#include "patience.h"

struct output {
    FILE *file; /* NULL: none was named, and the calls below do nothing */
    const char *path;
    const struct patience *patience;
    int number;
    int error;       /* why nothing is written any more, or 0 */
    unsigned heeded; /* signals that had come when something was last written */
};

/* Opens the file at that path, emptied; NULL names none. The path and `patience` stay the caller's, and the output is
 * freed by output_close. False, and reported, where it cannot be opened. */
bool output_open(struct output *output, const char *path, const struct patience *patience);

/* Hands on to the file what was printed, so that others can read it. */
void output_flush(struct output *output);

/* Closes the file. False where not all could be written, which is reported. */
bool output_close(struct output *output);

#endif
