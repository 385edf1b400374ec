/* gpio-sim's file system: when it is mounted, and what is said where it can't be.
 *
 * It is mounted once a program needs it, so that the others neither wait for it nor leave anything behind. */
#ifndef SHOW_H
#define SHOW_H

#include <stdbool.h>

#include "../../wire.h"
#include "../watch.h"

struct broker;

struct show {
    const char *missing; /* what it needs and isn't here, and what helps; NULL where nothing is known to be missing */
    bool is_shown;
    bool is_reported; /* what is missing was said */
    struct watch watch;
};

/* Looks what the file system needs, before the command begins. As root the broker goes into a mount name space of its
 * own, so that nothing stays mounted once it and its command have ended, however they do; not where programs that
 * others start are to see it, as `is_private` says. */
void show_prepare(struct broker *broker, bool is_private);

/* Mounts it at `view/sys` in the broker's folder, where it isn't yet. False where it can't be; what is missing is
 * reported once, where a program uses it. */
bool show_begin(struct broker *broker, enum wire_tree need);

/* Answers one request of a program that uses it. False where the served program has ended. */
bool show_answer(struct broker *broker);

/* Unmounts it. */
void show_end(struct broker *broker);

#endif
