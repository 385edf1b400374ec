#include "statements.h"

#include <errno.h>
#include <stdio.h>
#include <string.h>

#include "../notify/notify.h"
#include "../saying.h"
#include "../show/mount.h"
#include "texts.h"

/* The longest path of a place in the served program, with its zero. */
#define MOST_PATH 128

/* How the path of an attribute ends; empty for a folder. */
static const char *ending_of(enum place_kind kind) {
    switch (kind) {
    case PLACE_LIVE:
        return "/live";
    case PLACE_CHIP_NAME:
        return "/chip_name";
    case PLACE_NUM_LINES:
        return "/num_lines";
    case PLACE_LABEL:
        return "/label";
    case PLACE_LINE_NAME:
    case PLACE_HOG_NAME:
        return "/name";
    case PLACE_HOG_DIRECTION:
        return "/direction";
    default:
        return "";
    }
}

static bool is_below_hog(enum place_kind kind) {
    return kind == PLACE_HOG || kind == PLACE_HOG_NAME || kind == PLACE_HOG_DIRECTION;
}

/* Writes the path of a place in the served program: at most 15 bytes a name, so that it fits. */
static void write_path(char path[MOST_PATH], const struct place *place) {
    char line[24] = "";
    if (place->kind == PLACE_PULL || place->kind == PLACE_VALUE) {
        snprintf(path, MOST_PATH, "gpiochip%u/sim_gpio%u/%s", place->chip, place->offset,
            place->kind == PLACE_PULL ? "pull" : "value");
        return;
    }
    if (place->line)
        snprintf(line, sizeof line, "/line%u", place->line->offset);
    snprintf(path, MOST_PATH, "%s%s%s%s%s%s", place->device->machine_name, place->bank ? "/" : "",
        place->bank ? place->bank->machine_name : "", line, is_below_hog(place->kind) ? "/hog" : "",
        ending_of(place->kind));
}

/* What an answer means. The text of a name may be the same as that of an error: reading one that is there can't fail.
 */
static int error_of(const struct machine *machine, const char *verb, enum place_kind kind) {
    bool is_name = kind == PLACE_LABEL || kind == PLACE_LINE_NAME || kind == PLACE_HOG_NAME;
    if (strcmp(verb, "read") == 0 && is_name && !machine->refused && !machine->ended)
        return 0;
    return machine_error(machine);
}

/* The program whose request is answered: one that does it itself, by one of its threads, or one for which a receiver
 * does. */
static struct asker asker_of_caller(const struct broker *broker) {
    return asker_of_thread(notify_caller(broker, mount_process()));
}

static int say_line(
    struct broker *broker, const char *line, const char *verb, enum place_kind kind, char text[TREE_TEXT]) {
    struct statement statement;
    if (broker->machine.ended || !renewal_before_statement(broker))
        return ENODEV;
    if (statement_read(&statement, line, strlen(line), broker->manual))
        return EINVAL;
    if (broker->record.transcript.file)
        broker->record.asker = asker_of_caller(broker);
    if (!saying_say(broker, &statement, line, strlen(line)))
        return ENODEV;
    int error = error_of(&broker->machine, verb, kind);
    if (text)
        snprintf(text, TREE_TEXT, "%s", broker->machine.text);
    return saying_settle(broker, &statement) ? error : ENODEV;
}

int statements_say(struct broker *broker, const char *verb, const struct place *place, char text[TREE_TEXT]) {
    char path[MOST_PATH], line[MOST_PATH + 16];
    write_path(path, place);
    snprintf(line, sizeof line, "%s %s", verb, path);
    return say_line(broker, line, verb, place->kind, text);
}

int statements_write(struct broker *broker, const struct place *place, const char *value) {
    char path[MOST_PATH], word[TEXTS_WORD], line[2 * MOST_PATH];
    if (!texts_write_word(word, value))
        return EINVAL;
    write_path(path, place);
    snprintf(line, sizeof line, "write %s %s", path, word);
    return say_line(broker, line, "write", place->kind, NULL);
}

unsigned statements_chip_of(struct broker *broker, struct tree_device *device, struct tree_bank *bank) {
    struct place place = {.kind = PLACE_CHIP_NAME, .device = device, .bank = bank};
    char text[TREE_TEXT];
    unsigned chip;
    if (bank->chip == NODE_NO_CHIP && statements_say(broker, "read", &place, text) == 0) {
        text[strcspn(text, "\n")] = 0;
        if (texts_numbered(text, "gpiochip", &chip) && chip < WIRE_CHIPS)
            bank->chip = chip;
    }
    return bank->chip;
}
