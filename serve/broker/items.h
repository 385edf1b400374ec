/* What a read gives, as bytes and as the text that a session prints for it. */
#ifndef ITEMS_H
#define ITEMS_H

#include <stddef.h>
#include <stdio.h>

/* Prints the events of 48 bytes, or the changes of 288, as `events` and `changes` do. An item that isn't whole is left
 * out. */
void items_print_events(FILE *out, const unsigned char *bytes, size_t length);
void items_print_changes(FILE *out, const unsigned char *bytes, size_t length);

/* Makes the events of version 1, 16 bytes each, from what `events1` printed. At most `room` bytes; how many were
 * written. */
size_t items_read_events1(const char *text, unsigned char *bytes, size_t room);

/* How many bytes of changes have to be read for a read of so many bytes by the first uAPI, whose changes have 104
 * bytes: as the kernel has it, a further one is given while there is room for 288. With room for none it stays as it
 * is. */
size_t items_room_for_changes1(size_t room);

/* Makes the changes of version 1 out of those of version 2, in their place. How many bytes they have. */
size_t items_make_changes1(unsigned char *bytes, size_t length);

#endif
