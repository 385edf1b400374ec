/* Calls that make, remove or change what they name, where the name is the broker's. */
#ifndef CHANGING_H
#define CHANGING_H

#include "named.h"

/* Answers a call with one name. In gpio-sim's file system it is done; all other names of the broker's stay as they
 * are. */
void changing_answer(const struct named *named, struct call *call);

/* Answers a call with two names, of which at least one is the broker's. */
void changing_answer_move(const struct named *named, struct call *call);

#endif
