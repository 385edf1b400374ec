/* Statements that are said to the served program for a client or for the tree. */
#ifndef SAYING_H
#define SAYING_H

#include "broker.h"
#include "statement.h"

/* Says a statement that statement_read has read, and marks what it may change. The machine has the answer, and
 * saying_settle has to come next. False where the served program has ended, as for saying_settle. */
bool saying_say(struct broker *broker, const struct statement *statement, const char *line, size_t length);

/* Settles what the statement may have brought about. */
bool saying_settle(struct broker *broker, const struct statement *statement);

#endif
