/* What the command leaves behind: daemons, which have left it, are adopted and waited for. */
#ifndef DESCENDANTS_H
#define DESCENDANTS_H

#include <stdbool.h>
#include <stddef.h>
#include <sys/types.h>

/* Children of gpioserve itself, at most. */
#define DESCENDANTS_OWN 8

struct descendants {
    bool adopted;               /* else there are none, and the calls below do nothing */
    pid_t own[DESCENDANTS_OWN]; /* children that there were before the command */
    size_t own_count;
};

/* Adopts from now on what the command, which is started next, leaves behind. False, and reported, where that can't be.
 */
bool descendants_adopt(struct descendants *descendants);

/* A child of gpioserve itself was started with the command. */
void descendants_add_own(struct descendants *descendants, pid_t pid);

/* A child of gpioserve itself was started in the place of another one. */
void descendants_replace(struct descendants *descendants, pid_t before, pid_t pid);

/* Takes the ends of those that have ended, except of the command, and says whether any is left. */
bool descendants_are_left(const struct descendants *descendants, pid_t command);

/* Sends a signal to each that is left and was left by its parent, the command among them. */
void descendants_signal(const struct descendants *descendants, int number);

#endif
