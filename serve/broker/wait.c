#include "wait.h"

#include <string.h>

#include "../wire.h"
#include "words.h"

/* A limit, in milliseconds, where none is given. */
#define LIMIT_GIVEN 30000

static const char refusal[] =
    "refused: wait held CHIP LINE [by CONSUMER], wait released CHIP LINE, wait level CHIP LINE 0 or 1, wait read CHIP "
    "LINE [COUNT], wait opened CHIP [COUNT] or wait changed, each with [within TIME], as within 500ms or within 5s\n";

bool wait_is(const char *line) {
    return words_is(words_first(line), "wait");
}

/* Takes the beginning off a word, where it is there. */
static struct word without(struct word word, const char *beginning) {
    size_t length = strlen(beginning);
    if (word.length > length && memcmp(word.at, beginning, length) == 0)
        return (struct word){word.at + length, word.length - length};
    return word;
}

/* A chip as statements name it: `gpiochipN`, `N` or `/dev/gpiochipN`. */
static bool read_chip(struct word word, unsigned *chip) {
    uint64_t number;
    struct word name = without(word, "/dev/");
    struct word digits = without(name, "gpiochip");
    if ((name.at != word.at && digits.at == name.at) || !words_number(digits, WIRE_CHIPS - 1, &number))
        return false;
    *chip = (unsigned)number;
    return true;
}

static bool read_line(struct word word, uint32_t *line) {
    uint64_t number;
    if (!words_number(word, WAIT_LINES - 1, &number))
        return false;
    *line = (uint32_t)number;
    return true;
}

/* Reads what follows the line or the chip, and takes it off. Of a level the number has to be there. */
static bool read_rest(struct wait *wait, struct word *word) {
    struct word next = words_after(*word);
    switch (wait->kind) {
    case WAIT_LEVEL:
        *word = next;
        return words_number(next, 1, &wait->number);
    case WAIT_READ:
    case WAIT_OPENED:
        wait->number = 1;
        if (words_number(next, UINT64_MAX, &wait->number))
            *word = next;
        return true;
    case WAIT_HELD:
        if (!words_is(next, "by"))
            return true;
        *word = words_after(next);
        if (word->length == 0 || word->length >= sizeof wait->holder)
            return false;
        memcpy(wait->holder, word->at, word->length);
        return true;
    default:
        return true;
    }
}

/* Reads `within TIME`, or nothing. */
static bool read_limit(struct wait *wait, struct word last) {
    struct word within = words_after(last), time = words_after(within);
    wait->limit = LIMIT_GIVEN;
    if (within.length == 0)
        return true;
    return words_is(within, "within") && words_time(time, &wait->limit) && words_after(time).length == 0;
}

const char *wait_read(struct wait *wait, const char *line) {
    static const char *const kinds[] = {[WAIT_HELD] = "held",
        [WAIT_RELEASED] = "released",
        [WAIT_LEVEL] = "level",
        [WAIT_READ] = "read",
        [WAIT_OPENED] = "opened",
        [WAIT_CHANGED] = "changed"};
    struct word kind = words_after(words_first(line)), word = kind;
    memset(wait, 0, sizeof *wait);
    for (size_t i = WAIT_HELD; i < sizeof kinds / sizeof *kinds; i++)
        if (words_is(kind, kinds[i]))
            wait->kind = (enum wait_kind)i;
    if (wait->kind == WAIT_NOTHING)
        return refusal;
    if (wait->kind != WAIT_CHANGED) {
        word = words_after(word);
        if (!read_chip(word, &wait->chip))
            return refusal;
    }
    if (wait->kind != WAIT_CHANGED && wait->kind != WAIT_OPENED) {
        word = words_after(word);
        if (!read_line(word, &wait->line))
            return refusal;
    }
    return read_rest(wait, &word) && read_limit(wait, word) ? NULL : refusal;
}
