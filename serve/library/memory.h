/* The program's own memory: what isn't there is EFAULT, as the kernel answers, and no crash. */
#ifndef MEMORY_H
#define MEMORY_H

#include <stdbool.h>
#include <stddef.h>

/* The length of a text, or -1 where it can't be read or is no path, which has less than PATH_MAX bytes. errno stays as
 * it was. */
long memory_text_length(const char *text);

/* Whether all of these bytes can be read. errno stays as it was. */
bool memory_is_readable(const void *bytes, size_t length);

/* Writes bytes for the program: 0, or EFAULT. errno stays as it was. */
int memory_write(void *target, const void *bytes, size_t length);

#endif
