/* What the broker does while the command runs. */
#ifndef LOOP_H
#define LOOP_H

#include "broker.h"

/* Answers questions until the command ends, which broker->signals has, or the served program. Where there is no
 * command, until the standard input ends, or a signal comes. The status to end with. */
int loop_run(struct broker *broker);

#endif
