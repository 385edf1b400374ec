/* Which files have to be looked at after a statement: those that it can have given something to read. */
#ifndef TOUCH_H
#define TOUCH_H

#include "files.h"

/* After the level of a line changed: the requests that report its edges. */
void touch_edges(struct files *files, unsigned chip, uint32_t line);

/* After lines were requested, released or configured anew: the chip's files that watch one of them. */
void touch_watches(struct files *files, unsigned chip, const uint32_t *lines, size_t count);

/* After a deadline has passed: the requests with a debounce period. */
void touch_debounced(struct files *files);

/* After a statement of which not more is known: all that can have something to read. */
void touch_waiting(struct files *files);

/* After chips may have gone: all whose chip was there. */
void touch_all(struct files *files);

/* After a read: that file, where it shows something to read. */
void touch_read(struct files *files, struct file *file);

#endif
