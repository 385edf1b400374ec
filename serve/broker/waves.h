/* The levels of lines over time, and who holds them, as a value change dump. DUMP.md has its form. */
#ifndef WAVES_H
#define WAVES_H

#include <stdbool.h>
#include <stdint.h>
#include <stdio.h>

#include "../uapi.h"
#include "../wire.h"
#include "machine.h"
#include "output.h"

struct wave;

struct waves {
    struct output dump; /* where none was named, nothing is kept, and the calls below do nothing */
    FILE *changes;      /* after the first values; a file without a name */
    struct wave *first;
    unsigned count;
    uint64_t start, last;                     /* in nanoseconds, and in units since then */
    uint64_t unit;                            /* of the dump's times, in nanoseconds */
    bool begun;                               /* chips that come from now on weren't there at the start */
    bool known[WIRE_CHIPS], late[WIRE_CHIPS]; /* chips that came, and those of them that came after the start */
    bool open[WIRE_CHIPS];                    /* chips with a file by which their lines are asked for */
};

/* Keeps levels for a dump at that path, which is the caller's and stays, as `patience` does; NULL keeps none. `unit` is
 * that of times, in nanoseconds. False, and reported, where there is no file for them. */
bool waves_open(struct waves *waves, const char *path, uint64_t unit, const struct patience *patience);

/* Time 0 of the dump. */
void waves_begin(struct waves *waves, uint64_t now);

/* Marks a line whose level or holder may change by the next statement. A line that is new is sampled first. */
void waves_touch(struct waves *waves, struct machine *machine, uint64_t now, unsigned chip, uint32_t offset);
/* Marks all lines that were ever marked. */
void waves_touch_all(struct waves *waves);

/* Asks for the level and the holder of each marked line. False where the served program has ended. */
bool waves_sample(struct waves *waves, struct machine *machine, uint64_t now);

/* The chips that are present now: lines of the others have no level any more. */
bool waves_take_chips(struct waves *waves, struct machine *machine, uint64_t now, const bool present[WIRE_CHIPS]);

/* Writes the dump, and frees all. False, and reported, where it can't be written. */
bool waves_close(struct waves *waves, uint64_t now);

#endif
