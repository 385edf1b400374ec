/* A statement that a client says: whether it may be said, and what it may bring about. */
#ifndef STATEMENT_H
#define STATEMENT_H

#include <stdbool.h>
#include <stddef.h>
#include <stdint.h>

/* What a statement may bring about, each with what stands before it. */
enum statement_effect {
    STATEMENT_ASKS, /* nothing */
    STATEMENT_ACTS, /* events, changes and deadlines */
    STATEMENT_CHIPS /* chips that come or go */
};

struct statement {
    enum statement_effect effect;
    bool kept;  /* it stands in a session; `due` doesn't */
    bool tool;  /* it may request lines that it doesn't name by their offsets */
    bool pulls; /* it pulls this line */
    unsigned chip;
    uint32_t offset;
    bool clock; /* it sets both clocks to these */
    uint64_t now, real;
};

/* Reads a statement of `length` bytes, ended by a zero. NULL, or why it may not be said, as the text of a refusal. */
const char *statement_read(struct statement *statement, const char *line, size_t length, bool manual);

#endif
