#include "statement.h"

#include <inttypes.h>
#include <stdio.h>
#include <string.h>
#include <strings.h>

#include "files.h"
#include "machine.h"
#include "words.h"

/* The text of a number that a macro names. */
#define TEXT_OF_NUMBER(number) #number
#define TEXT_OF(macro) TEXT_OF_NUMBER(macro)

/* Whether a word is the name of a file that a client has. */
static bool names_file(const char *line) {
    for (struct word word = words_first(line); word.length > 0; word = words_after(word))
        if (files_is_name(word.at, word.length))
            return true;
    return false;
}

/* Whether a word is a label or a value in pairs with a line end among its bytes: chips are listed line by line. */
static bool has_line_end(struct word word) {
    for (size_t at = 1; at + 1 < word.length && word.at[0] == '\\'; at += 2)
        if (strncasecmp(word.at + at, "0a", 2) == 0)
            return true;
    return false;
}

static bool names_line_end(struct word first) {
    static const char *const naming[] = {"aggregate", "probe", "write", NULL};
    struct word second = words_after(first);
    return words_is_one_of(first, naming) && (has_line_end(second) || has_line_end(words_after(second)));
}

static const char *fault_of(const char *line, size_t length, bool manual) {
    struct word first = words_first(line);
    if (length > MACHINE_LINE)
        return "refused: a statement has at most " TEXT_OF(MACHINE_LINE) " bytes\n";
    if (strlen(line) != length || memchr(line, '\n', length))
        return "refused: a statement is one line of printable ASCII\n";
    if (words_is(first, "data"))
        return "refused: say events or changes\n";
    if (words_is(first, "clock") && !manual)
        return "refused: the clock is the system's; gpioserve --clock manual leaves it to gpiosay\n";
    if (names_line_end(first))
        return "refused: a label or a value has no line end under gpioserve\n";
    if (names_file(line) && !words_is(first, "poll"))
        return "refused: this file belongs to a program\n";
    return NULL;
}

static enum statement_effect effect_of(struct word first, struct word second) {
    static const char *const nothing[] = {
        "", "due", "fault", "gpiodetect", "gpioinfo", "irq", "mkdir", "pin", "poll", "read", "rmdir", NULL};
    static const char *const chips[] = {"probe", "unplug", NULL};
    static const char live[] = "/live";
    if (words_is_one_of(first, nothing) || first.at[0] == '#')
        return STATEMENT_ASKS;
    if (words_is_one_of(first, chips))
        return STATEMENT_CHIPS;
    if (words_is(first, "write") && second.length > strlen(live) &&
        memcmp(second.at + second.length - strlen(live), live, strlen(live)) == 0)
        return STATEMENT_CHIPS;
    return STATEMENT_ACTS;
}

const char *statement_read(struct statement *statement, const char *line, size_t length, bool manual) {
    static const char *const tools[] = {
        "gpioget", "gpioset", "start", "step", "stop", "ioctl", "ioctl1", "close", NULL};
    const char *fault = fault_of(line, length, manual);
    memset(statement, 0, sizeof *statement);
    if (fault)
        return fault;
    struct word first = words_first(line), second = words_after(first);
    statement->effect = effect_of(first, second);
    statement->kept = !words_is(first, "due");
    statement->tool = words_is_one_of(first, tools);
    statement->pulls = words_is(first, "write") && sscanf(second.at, "gpiochip%u/sim_gpio%" SCNu32 "/pull ",
                                                       &statement->chip, &statement->offset) == 2;
    statement->clock =
        words_is(first, "clock") && sscanf(second.at, "%" SCNu64 " %" SCNu64, &statement->now, &statement->real) == 2;
    return NULL;
}
