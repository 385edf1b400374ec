/* A process that stands by from the start and answers calls once the broker is gone: without anybody who listens, the
 * kernel would fail each call of the filter, and no program could open a file any more. */
#ifndef STANDBY_H
#define STANDBY_H

#include "notify.h"

/* Starts the process. It ends with the last program. False, with errno, where it can't be started. No receiver may run
 * yet. */
bool standby_start(struct notify *notify);

#endif
