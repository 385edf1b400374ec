#include "outside.h"

#include <errno.h>
#include <inttypes.h>
#include <stdio.h>
#include <stdlib.h>
#include <string.h>

#include "burst.h"
#include "saying.h"
#include "statement.h"

/* Keeps a copy of a text. */
static void keep(struct said *said, const char *text, size_t length) {
    said->text = strndup(text, length);
    said->length = length;
}

/* Refuses what is no statement. */
static void refuse(struct said *said, const char *text) {
    said->is_none = true;
    said->error = EINVAL;
    keep(said, text, strlen(text));
}

/* Says a line that may be said. */
static bool say(
    struct broker *broker, const char *line, size_t length, const struct statement *statement, struct said *said) {
    if (!saying_say(broker, statement, line, length))
        return false;
    said->is_none = broker->machine.refused;
    said->error = machine_error_of_statement(&broker->machine);
    keep(said, broker->machine.text, broker->machine.length);
    if (statement->clock && said->error == 0) {
        broker->now = statement->now;
        broker->real = statement->real;
        observers_mark_clock(&broker->observers);
    }
    if (said->error == 0)
        tree_note_statement(&broker->tree, line);
    return saying_settle(broker, statement);
}

/* Moves the manual clock on. */
static bool pass(struct broker *broker, uint64_t time, struct said *said) {
    char line[64];
    struct statement statement;
    int length = snprintf(line, sizeof line, "clock %" PRIu64 " %" PRIu64, broker->now + time, broker->real + time);
    const char *refusal = statement_read(&statement, line, (size_t)length, broker->manual);
    if (!refusal)
        return say(broker, line, (size_t)length, &statement, said);
    refuse(said, refusal);
    return true;
}

bool outside_say(struct broker *broker, const char *line, size_t length, struct said *said) {
    struct statement statement;
    uint64_t number = 0;
    *said = (struct said){.is_none = false};
    switch (strlen(line) == length ? burst_read(line, &number) : BURST_NONE) {
    case BURST_CHANGES:
        keep(said, "", 0);
        return burst_say(broker, number);
    case BURST_PASSES:
        return pass(broker, number, said);
    case BURST_WRONG:
        refuse(said, burst_refusal);
        return true;
    case BURST_NONE:
        break;
    }
    const char *refusal = statement_read(&statement, line, length, broker->manual);
    if (!refusal)
        return say(broker, line, length, &statement, said);
    refuse(said, refusal);
    return true;
}

void said_free(struct said *said) {
    free(said->text);
    said->text = NULL;
}
