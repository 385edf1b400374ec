/* Names of gpio-sim's file system, by their text. The library and the broker share them. Each function takes a whole
 * path without repeated slashes. */
#ifndef TREE_NAMES_H
#define TREE_NAMES_H

#include <stdbool.h>

/* Whether a path is one that this file system alone has. */
bool tree_names_has(const char *path);

/* Whether a path leads to a folder of chips, which has more in it where that file system is shown. */
bool tree_names_shares(const char *path);

#endif
