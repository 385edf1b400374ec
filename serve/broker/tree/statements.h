/* The statements that stand for what is done in the tree. */
#ifndef STATEMENTS_H
#define STATEMENTS_H

#include "places.h"

/* Each says a statement, and settles what it may have brought about. 0, or the error number: ENODEV where the served
 * program has ended. */

/* `mkdir`, `rmdir` or `read` of a place. `text`, where it isn't NULL, gets what the statement printed. */
int statements_say(struct broker *broker, const char *verb, const struct place *place, char text[TREE_TEXT]);

/* `write` of a value to a place; EINVAL where no word of a statement says it. */
int statements_write(struct broker *broker, const struct place *place, const char *value);

/* The chip of a bank whose device is live; NODE_NO_CHIP where the served program names none. It is asked once. */
unsigned statements_chip_of(struct broker *broker, struct tree_device *device, struct tree_bank *bank);

#endif
