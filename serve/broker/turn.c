#include "turn.h"

#include <inttypes.h>
#include <stdio.h>
#include <string.h>
#include <sys/epoll.h>

#include "clock.h"
#include "notify/flow.h"
#include "touch.h"

static void put_clock(struct broker *broker) {
    broker->now = clock_monotonic();
    machine_putf(&broker->machine, "clock %" PRIu64 " %" PRIu64, broker->now, clock_real());
    if (!broker->has_due || broker->due > broker->now)
        return;
    touch_debounced(&broker->files);
    broker->asks_due = true;
}

/* Puts questions for the states of the files that have to be looked at, as many as one write takes, and for the next
 * deadline where it may be another one. */
static void put_looks(struct broker *broker) {
    struct looks *looks = &broker->looks;
    looks->count = 0;
    while (looks->count < LOOKS_MOST && broker->files.touched > 0) {
        enum file_look look;
        struct file *file = files_next_touched(&broker->files, &look);
        machine_putf(&broker->machine, "poll %s", file->name);
        looks->asked[looks->count].file = file;
        looks->asked[looks->count++].look = look;
    }
    looks->due = broker->asks_due && !broker->manual && broker->files.touched == 0;
    if (looks->due)
        machine_put(&broker->machine, "due", strlen("due"), false);
}

static bool take_due(struct broker *broker) {
    if (!machine_take(&broker->machine))
        return false;
    broker->has_due = sscanf(broker->machine.text, "%" SCNu64, &broker->due) == 1;
    broker->asks_due = false;
    return true;
}

/* Closes in the machine the file of a chip that is gone, and shows that to its readers. */
static bool hang_up(struct broker *broker, struct file *file) {
    machine_putf(&broker->machine, "close %s", file->name);
    if (!machine_take(&broker->machine))
        return false;
    files_hang_up(&broker->files, file);
    return true;
}

/* Shows a file's readers whether something can be read: where the kernel answers their reads, by what can be read. */
static bool show(struct broker *broker, struct file *file, bool readable, bool wakes) {
    if (broker->notify)
        return !readable || flow_move(broker, file);
    files_show(file, readable, wakes);
    return true;
}

/* Takes what put_looks asked for, and shows it to the files' readers. */
static bool take_looks(struct broker *broker) {
    struct looks *looks = &broker->looks;
    size_t count = looks->count;
    for (size_t i = 0; i < count; i++) {
        if (!machine_take(&broker->machine))
            return false;
        looks->asked[i].state = broker->machine.length > 0 ? broker->machine.text[0] : '-';
    }
    if (looks->due && !take_due(broker))
        return false;
    looks->count = 0;
    looks->due = false;
    for (size_t i = 0; i < count; i++) {
        struct file *file = looks->asked[i].file;
        bool wakes = looks->asked[i].look == LOOK_WAKES;
        if (looks->asked[i].state == 'H' ? !hang_up(broker, file)
                                         : !show(broker, file, looks->asked[i].state == 'I', wakes))
            return false;
    }
    return true;
}

bool turn_say(struct broker *broker, const char *line, size_t length, bool kept) {
    struct machine *machine = &broker->machine;
    if (!broker->manual)
        put_clock(broker);
    machine_put(machine, line, length, kept);
    put_looks(broker);
    return (broker->manual || machine_take(machine)) && machine_take(machine);
}

bool turn_say_at_once(struct broker *broker, const char *line, size_t length, bool kept) {
    machine_put(&broker->machine, line, length, kept);
    return machine_take(&broker->machine);
}

void turn_pulls(struct broker *broker, unsigned chip, uint32_t line) {
    touch_edges(&broker->files, chip, line);
    broker->asks_due = true;
}

void turn_changes(struct broker *broker, unsigned chip, uint32_t line) {
    waves_touch(&broker->waves, &broker->machine, broker->now, chip, line);
    observers_mark(&broker->observers, chip, line);
}

void turn_requests(struct broker *broker, unsigned chip, const uint32_t *lines, size_t count) {
    touch_watches(&broker->files, chip, lines, count);
    broker->asks_due = true;
}

void turn_does_any(struct broker *broker) {
    touch_waiting(&broker->files);
    broker->asks_due = true;
}

/* Gives names to the chips that gpiodetect lists. Where it is refused (no file is left to open a chip by), they stay as
 * they are. */
static bool name_chips(struct broker *broker) {
    bool present[WIRE_CHIPS] = {false};
    machine_putf(&broker->machine, "gpiodetect");
    if (!machine_take(&broker->machine))
        return false;
    for (const char *row = broker->machine.text; row && *row; row = strchr(row, '\n'), row = row ? row + 1 : row) {
        unsigned chip;
        if (strncmp(row, "gpiodetect:", 11) == 0)
            return true;
        if (sscanf(row, "gpiochip%u [", &chip) == 1 && chip < WIRE_CHIPS)
            present[chip] = true;
    }
    home_name_chips(&broker->home, present);
    tree_note_chips(&broker->tree, broker->machine.text);
    observers_note_chips(&broker->observers, broker->machine.text);
    for (unsigned chip = 0; chip < WIRE_CHIPS; chip++)
        broker->counts.known[chip] = broker->counts.known[chip] || present[chip];
    return waves_take_chips(&broker->waves, &broker->machine, broker->now, present);
}

bool turn_settle(struct broker *broker, bool chips) {
    if (!take_looks(broker))
        return false;
    if (chips) {
        touch_all(&broker->files);
        broker->asks_due = true;
    }
    while (broker->files.touched > 0 || (broker->asks_due && !broker->manual)) {
        put_looks(broker);
        if (!take_looks(broker))
            return false;
    }
    if (chips && !(name_chips(broker) && observers_take_chips(broker)))
        return false;
    return waves_sample(&broker->waves, &broker->machine, broker->now) && waits_look(broker);
}

bool turn_tick(struct broker *broker) {
    if (broker->manual)
        return true;
    put_clock(broker);
    put_looks(broker);
    return machine_take(&broker->machine) && turn_settle(broker, false);
}

/* Closes a file that no client has any more, and frees it. */
static bool close_file(struct broker *broker, struct file *file) {
    char line[32];
    if (files_is_gone(file)) {
        files_drop(&broker->files, file);
        return true;
    }
    for (size_t i = 0; i < file->line_count; i++)
        turn_changes(broker, file->chip, file->lines[i]);
    int length = snprintf(line, sizeof line, "close %s", file->name);
    if (file->kind != FILE_CHIP)
        turn_requests(broker, file->chip, file->lines, file->line_count);
    broker->record.asker = file->asker;
    if (broker->notify) /* (what was read since the last look would be lost with the file) */
        flow_count_reads(broker, file);
    files_drop(&broker->files, file);
    return turn_say(broker, line, (size_t)length, true) && turn_settle(broker, false);
}

bool turn_close_ended(struct broker *broker) {
    struct epoll_event events[64];
    int count;
    while ((count = epoll_wait(broker->ends, events, 64, 0)) > 0) {
        for (int i = 0; i < count; i++) {
            struct watch *watch = events[i].data.ptr;
            if (!close_file(broker, watch->owner))
                return false;
        }
    }
    return true;
}

int turn_wait(const struct broker *broker) {
    if (broker->manual || !broker->has_due)
        return -1;
    uint64_t now = clock_monotonic();
    uint64_t left = broker->due > now ? (broker->due - now + CLOCK_MILLISECOND - 1) / CLOCK_MILLISECOND : 0;
    return left > 60000 ? 60000 : (int)left;
}
