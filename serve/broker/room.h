/* Memory that grows. */
#ifndef ROOM_H
#define ROOM_H

#include <stddef.h>

/* Makes room for so many bytes at `*bytes`, which the caller frees. Out of memory ends the broker by abort: what it
 * holds ends with it, and the command's calls answer ENODEV. */
void room_for(char **bytes, size_t *room, size_t wanted);

/* Memory of zeros, which the caller frees. */
void *room_new(size_t size);

#endif
