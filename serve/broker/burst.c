#include "burst.h"

#include <inttypes.h>
#include <stdio.h>
#include <string.h>

#include "clock.h"
#include "turn.h"
#include "words.h"

const char burst_refusal[] = "refused: burst COUNT, from 1 to 100000, or pass TIME, as pass 10ms or pass 2s\n";

enum burst_kind burst_read(const char *line, uint64_t *number) {
    struct word first = words_first(line), second = words_after(first);
    bool ends = words_after(second).length == 0;
    if (words_is(first, "burst"))
        return ends && words_number(second, BURST_MOST, number) && *number > 0 ? BURST_CHANGES : BURST_WRONG;
    if (!words_is(first, "pass"))
        return BURST_NONE;
    if (!ends || !words_time(second, number))
        return BURST_WRONG;
    *number *= CLOCK_MILLISECOND;
    return BURST_PASSES;
}

/* Whether a line is pulled up. False where the served program has ended. */
static bool read_pull(struct broker *broker, unsigned chip, uint32_t line, bool *is_up) {
    char text[64];
    int length = snprintf(text, sizeof text, "read gpiochip%u/sim_gpio%" PRIu32 "/pull", chip, line);
    if (!turn_say(broker, text, (size_t)length, true))
        return false;
    *is_up = strcmp(broker->machine.text, "pull-up\n") == 0;
    return turn_settle(broker, false);
}

/* Pulls a line to and fro. What it touches is looked at once, at the end. */
static bool change(struct broker *broker, unsigned chip, uint32_t line, uint64_t changes) {
    struct machine *machine = &broker->machine;
    bool is_up;
    if (!read_pull(broker, chip, line, &is_up))
        return false;
    for (uint64_t done = 0; done < changes;) {
        uint64_t put = changes - done < MACHINE_WAITING ? changes - done : MACHINE_WAITING;
        for (uint64_t i = 0; i < put; i++) {
            is_up = !is_up;
            machine_putf(
                machine, "write gpiochip%u/sim_gpio%" PRIu32 "/pull %s", chip, line, is_up ? "pull-up" : "pull-down");
        }
        for (uint64_t i = 0; i < put; i++)
            if (!machine_take(machine))
                return false;
        done += put;
    }
    turn_changes(broker, chip, line);
    turn_pulls(broker, chip, line);
    return turn_settle(broker, false);
}

bool burst_say(struct broker *broker, uint64_t changes) {
    static struct {
        unsigned chip;
        uint32_t line;
    } awaited[UAPI_LINES];
    size_t count = 0;
    for (const struct file *file = broker->files.first; file; file = file->next)
        for (size_t i = 0; file->awaits && file->kind != FILE_CHIP && !files_is_gone(file) && i < file->line_count; i++)
            if (count < UAPI_LINES) {
                awaited[count].chip = file->chip;
                awaited[count++].line = file->lines[i];
            }
    for (size_t i = 0; i < count; i++)
        if (!change(broker, awaited[i].chip, awaited[i].line, changes))
            return false;
    return true;
}
