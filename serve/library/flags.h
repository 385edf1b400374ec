/* The flags that a file of the broker's shows, which are those that it was opened with. */
#ifndef FLAGS_H
#define FLAGS_H

#include <stdbool.h>

/* Gives a file that just came from the broker the flags of `open`. */
void flags_keep(int file, int flags);

/* Whether a pipe has a mark, as all of the broker's have from their beginning, and hardly another one. */
bool flags_are_kept(int file);

#endif
