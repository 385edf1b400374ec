/* gpio-sim's file system, which the broker mounts once a program uses a name of it. */
#ifndef TREE_H
#define TREE_H

#include <stdbool.h>

/* Whether the broker shows it to this process. It was asked for before: by tree_uses or tree_searches. */
bool tree_is_shown(void);

/* Asks for it, where this process hasn't yet: because a name of it is used, or because a program looks whether it is
 * there. Whether it is shown. */
bool tree_uses(void);
bool tree_searches(void);

#endif
