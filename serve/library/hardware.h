/* The GPIO chips that this machine has itself: no program that is run here reaches them. */
#ifndef HARDWARE_H
#define HARDWARE_H

#include <stdbool.h>
#include <stdint.h>
#include <sys/types.h>

/* The number of the chip that a character device of this number is; -1 where it is none. errno stays as it was. */
int hardware_chip(dev_t device);

/* Whether a file may be a chip of this machine or a request of its lines, and not one of the broker's. Where that can't
 * be seen it may. errno stays as it was. */
bool hardware_is(int file);

/* Says on standard error, once in a process, that a command on such a file was refused. */
void hardware_refuse(int file, uint32_t command);

/* Whether a line of /proc/devices says that a major number is that of GPIO chips; `*major` is the number. */
bool hardware_read_line(const char *line, unsigned *major);

#endif
