#include "saying.h"

#include "turn.h"

bool saying_say(struct broker *broker, const struct statement *statement, const char *line, size_t length) {
    if (statement->pulls) {
        turn_changes(broker, statement->chip, statement->offset);
        turn_pulls(broker, statement->chip, statement->offset);
    } else if (statement->effect == STATEMENT_ACTS) {
        turn_does_any(broker);
    }
    if (statement->tool) {
        waves_touch_all(&broker->waves);
        observers_mark_all(&broker->observers);
    }
    return turn_say(broker, line, length, statement->kept);
}

bool saying_settle(struct broker *broker, const struct statement *statement) {
    return turn_settle(broker, statement->effect == STATEMENT_CHIPS);
}
