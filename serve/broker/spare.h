/* A number of a file that is kept for moments in which no other one is left. */
#ifndef SPARE_H
#define SPARE_H

#include <stdbool.h>

/* Takes the number. Without it, as where no file can be opened at all, the calls below do nothing. */
void spare_take(void);

/* Gives the number up, so that one file can be opened, which has to be closed before spare_take. */
void spare_lend(void);

/* Whether an error says that no number is left. */
bool spare_is_wanted(int error);

#endif
