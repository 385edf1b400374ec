/* The broker's folder: the socket, and the names that the command finds in /dev and /sys. */
#ifndef HOME_H
#define HOME_H

#include <stdbool.h>
#include <stddef.h>

#include "../wire.h"

struct home {
    char path[108 - sizeof "/" WIRE_SOCKET]; /* so that the socket's path has room in its address */
    bool made;
    bool lists_devices;       /* chips are listed as devices, not as files */
    bool present[WIRE_CHIPS]; /* the chips that have names */
};

/* Makes the folder, of mode 0700: the one that is named, which mustn't be there or must be empty and the user's own, or
 * a new one in TMPDIR. False, and reported, where that fails. */
bool home_make(struct home *home, const char *named);

/* Gives names to the chips that are present, and takes the others' away. */
void home_name_chips(struct home *home, const bool present[WIRE_CHIPS]);

/* Removes the folder with all that is in it. */
void home_remove(struct home *home);

#endif
