#include "recent.h"

#include <string.h>

static struct recent_statement *place_of(struct recent *recent, uint64_t number) {
    return &recent->kept[number % RECENT_MOST];
}

void recent_add(struct recent *recent, const struct asker *asker, const char *text, size_t length) {
    struct recent_statement *statement = place_of(recent, recent->count++);
    size_t kept = length < RECENT_TEXT ? length : RECENT_TEXT - 1;
    statement->asker = *asker;
    memcpy(statement->text, text, kept);
    statement->text[kept] = 0;
    statement->printed[0] = 0;
}

void recent_note_printed(struct recent *recent, const char *text, size_t length) {
    if (recent->count == 0 || length == 0 || length > RECENT_PRINTED || memchr(text, '\n', length) != text + length - 1)
        return;
    struct recent_statement *statement = place_of(recent, recent->count - 1);
    memcpy(statement->printed, text, length - 1);
    statement->printed[length - 1] = 0;
}

const struct recent_statement *recent_at(const struct recent *recent, uint64_t number) {
    return &recent->kept[number % RECENT_MOST];
}
