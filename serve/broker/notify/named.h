/* Calls that take a name: what they say, and what is answered where the name is the broker's. */
#ifndef NAMED_H
#define NAMED_H

#include <limits.h>
#include <stdbool.h>
#include <sys/stat.h>

#include "call.h"
#include "lookup.h"
#include "operations.h"

/* What a call says. */
struct named {
    const struct operation *operation;
    struct lookup_from from;
    char name[PATH_MAX];
    int flags;        /* of an opening (`O_..`), or of a name (`AT_..`) */
    bool stays_below; /* the name mustn't lead out of its folder */
    struct lookup found;
    char second_name[PATH_MAX];     /* of a call with two names, */
    int second_error;               /* or why it can't be read, */
    struct lookup_from second_from; /* what that one is relative to, */
    struct lookup second;           /* and where it leads */
};

/* Reads what a call says, and looks where its names lead, seen from the broker's folder `home`, in which gpio-sim's
 * file system is shown where `shows_tree` says so. False where it takes no name, or the first one can't be read: then
 * the kernel says what is wrong. */
bool named_read(struct named *named, const struct call *call, const char *home, bool shows_tree);

/* Whether a call, to be answered, needs gpio-sim's file system, which isn't shown yet; and why. */
bool named_needs_tree(const struct named *named, enum wire_tree *need);

/* Looks again where the names lead, once that file system is shown. */
void named_look_in_tree(struct named *named);

/* Whether a name of a call is the broker's. */
bool named_is_ours(const struct named *named);

/* Whether the call asks for a file that the broker's loop has to make: that of a chip. */
bool named_opens_chip(const struct named *named);

/* Answers a call of which a name is the broker's, and which opens no chip. */
void named_answer(const struct named *named, struct call *call);

/* Makes a status that of a chip's device. */
void named_show_chip(struct stat *status, unsigned chip);
void named_show_chip_extended(struct statx *status, unsigned chip);

#endif
