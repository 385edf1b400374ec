/* Lists of mounts, in which programs look whether configfs is mounted. */
#ifndef MOUNTS_H
#define MOUNTS_H

#include <stdbool.h>
#include <stdio.h>

/* Opens a list of mounts to which a line for configfs is added, where the path names such a list and gpio-sim's file
 * system is shown: its descriptor, which the caller owns; else -1, with errno as it was. */
int mounts_open(const char *path, bool close_on_exec);

/* The same as a stream; NULL where there is none. */
FILE *mounts_open_stream(const char *path, const char *mode);

#endif
