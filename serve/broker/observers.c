#include "observers.h"

#include <inttypes.h>
#include <stdarg.h>
#include <stdio.h>
#include <stdlib.h>
#include <string.h>

#include "broker.h"
#include "clock.h"
#include "notify/flow.h"
#include "pieces.h"
#include "room.h"

/* What one response reports at most, so that it fits into a packet and others don't wait for it. */
#define REPORTED_LINES 64
#define REPORTED_STATEMENTS 128
/* Lines that are asked for in one write, three statements each. */
#define ASKED_LINES (MACHINE_WAITING / 3)
/* The least time between two responses; and the part of the broker's time that responses may take, once everything was
 * reported. */
#define PAUSE (40 * CLOCK_MILLISECOND)
#define PAUSE_MOST CLOCK_SECOND
#define PAUSE_FACTOR 20
/* The longest line of a response. */
#define MOST_ROW 512
/* Where the information on a line has what is reported. */
#define INFO_LENGTH 256
#define INFO_CONSUMER_AT 32
#define INFO_COUNT_AT 68
#define INFO_FLAGS_AT 72
#define INFO_ATTRIBUTES_AT 80
#define INFO_ATTRIBUTE 16
#define ATTRIBUTE_VALUE_AT 8
#define ATTRIBUTE_DEBOUNCE 3

bool observers_add(struct broker *broker, struct client *client) {
    struct observers *observers = &broker->observers;
    if (client->observer)
        return true;
    if (observers->count == OBSERVERS_MOST)
        return false;
    struct observer *observer = room_new(sizeof *observer);
    observer->all = observers;
    observer->chips = observer->clock = true;
    observer->next = observers->first;
    observers->first = observer;
    observers->count++;
    client->observer = observer;
    return true;
}

void observers_remove(struct client *client) {
    if (!client->observer)
        return;
    struct observers *observers = client->observer->all;
    struct observer **at = &observers->first;
    while (*at && *at != client->observer)
        at = &(*at)->next;
    if (*at)
        *at = client->observer->next;
    free(client->observer);
    client->observer = NULL;
    if (--observers->count > 0)
        return;
    free(observers->text);
    observers->text = NULL;
    observers->length = observers->room = 0;
}

void observers_free(struct observers *observers) {
    free(observers->chips);
    observers->chips = NULL;
    observers->chips_room = 0;
}

static void mark(struct observer *observer, unsigned chip, uint32_t line) {
    observer->lines[chip][line / 64] |= UINT64_C(1) << line % 64;
    observer->marked[chip] = true;
}

void observers_mark(struct observers *observers, unsigned chip, uint32_t line) {
    for (struct observer *observer = observers->first; observer; observer = observer->next)
        if (chip < WIRE_CHIPS && line < UAPI_CHIP_LINES && observer->known[chip])
            mark(observer, chip, line);
}

static void mark_chip(struct observer *observer, unsigned chip) {
    for (uint32_t line = 0; line < observer->sizes[chip]; line++)
        mark(observer, chip, line);
}

void observers_mark_all(struct observers *observers) {
    for (struct observer *observer = observers->first; observer; observer = observer->next)
        for (unsigned chip = 0; chip < WIRE_CHIPS; chip++)
            if (observer->known[chip])
                mark_chip(observer, chip);
}

/* Says a statement that nobody asked for, which stands in the transcript as that of no process. */
static bool say_own(struct broker *broker, const char *line, size_t length) {
    struct asker asker = broker->record.asker;
    broker->record.asker = (struct asker){.pid = 0};
    machine_put(&broker->machine, line, length, true);
    bool alive = machine_take(&broker->machine);
    broker->record.asker = asker;
    return alive;
}

void observers_note_chips(struct observers *observers, const char *rows) {
    size_t length = strlen(rows) + 1;
    room_for(&observers->chips, &observers->chips_room, length);
    memcpy(observers->chips, rows, length);
}

bool observers_take_chips(struct broker *broker) {
    struct observers *observers = &broker->observers;
    char line[32];
    for (struct observer *observer = observers->first; observer; observer = observer->next)
        observer->chips = true;
    for (unsigned chip = 0; chip < WIRE_CHIPS; chip++) {
        if (!observers->open[chip] || broker->home.present[chip])
            continue;
        int length = snprintf(line, sizeof line, "close " FILES_OBSERVED "%u", chip);
        observers->open[chip] = false;
        if (!say_own(broker, line, (size_t)length))
            return false;
    }
    return true;
}

/* Opens a chip, so that its lines can be asked for. Where it can't be opened, only levels and pulls of its lines are
 * reported. */
static bool open_chip(struct broker *broker, unsigned chip) {
    char line[48];
    if (broker->observers.open[chip])
        return true;
    int length = snprintf(line, sizeof line, "open " FILES_OBSERVED "%u %u", chip, chip);
    if (!say_own(broker, line, (size_t)length))
        return false;
    broker->observers.open[chip] = machine_error(&broker->machine) == 0;
    return true;
}

void observers_mark_clock(struct observers *observers) {
    for (struct observer *observer = observers->first; observer; observer = observer->next)
        observer->clock = true;
}

void observers_mark_reset(struct observers *observers) {
    memset(observers->open, 0, sizeof observers->open);
    if (observers->chips)
        observers->chips[0] = 0;
    for (struct observer *observer = observers->first; observer; observer = observer->next) {
        memset(observer->known, 0, sizeof observer->known);
        memset(observer->marked, 0, sizeof observer->marked);
        memset(observer->lines, 0, sizeof observer->lines);
        observer->reset = observer->chips = observer->clock = true;
    }
}

static bool has_marks(const struct observer *observer) {
    for (unsigned chip = 0; chip < WIRE_CHIPS; chip++)
        if (observer->marked[chip])
            return true;
    return false;
}

/* Where the kernel notifies of calls, programs read events unseen: looks, from time to time, how many they have read.
 */
static void count_unseen_reads(struct broker *broker) {
    uint64_t now = clock_monotonic();
    if (!broker->notify || now < broker->observers.looks)
        return;
    broker->observers.looks = now + OBSERVERS_LOOKS;
    for (struct file *file = broker->files.first; file; file = file->next)
        if (file->awaits)
            flow_count_reads(broker, file);
}

bool observers_has_news(struct broker *broker, const struct client *client) {
    const struct observer *observer = client->observer;
    count_unseen_reads(broker);
    return !observer->has_all || observer->reset || observer->chips || observer->clock ||
           observer->heard < broker->record.recent.count || has_marks(observer);
}

uint64_t observers_rest(const struct client *client, uint64_t now) {
    return client->observer->due > now ? client->observer->due - now : 0;
}

/* Adds a line to the response. */
__attribute__((format(printf, 2, 3))) static void add(struct observers *observers, const char *form, ...) {
    va_list values;
    room_for(&observers->text, &observers->room, observers->length + MOST_ROW);
    va_start(values, form);
    int length = vsnprintf(observers->text + observers->length, MOST_ROW, form, values);
    va_end(values);
    if (length > 0)
        observers->length += (size_t)length < MOST_ROW ? (size_t)length : MOST_ROW - 1;
}

/* Writes a text of at most UAPI_NAME - 1 bytes as a word. */
static void write_word(char word[CONSUMER_ROOM], const char *text) {
    unsigned char bytes[UAPI_NAME] = {0};
    memcpy(bytes, text, strnlen(text, UAPI_NAME - 1));
    consumer_write(word, bytes);
}

/* Reports a chip that gpiodetect lists in that line of text. */
static void report_chip(struct observers *observers, struct observer *observer, const char *row, bool *present) {
    unsigned chip;
    uint32_t lines = 0;
    size_t length = strcspn(row, "\n");
    const char *count = memchr(row, '(', length);
    if (sscanf(row, "gpiochip%u [", &chip) != 1 || chip >= WIRE_CHIPS)
        return;
    for (const char *next = count; next; next = memchr(next + 1, '(', length - (size_t)(next + 1 - row)))
        count = next;
    if (!count || sscanf(count, "(%" SCNu32 " lines)", &lines) != 1)
        return;
    present[chip] = true;
    if (observer->known[chip])
        return;
    observer->known[chip] = true;
    observer->sizes[chip] = lines < UAPI_CHIP_LINES ? lines : UAPI_CHIP_LINES;
    add(observers, "chip %.*s\n", (int)length, row);
    mark_chip(observer, chip);
}

/* Reports which chips came, and which have gone. */
static void report_chips(struct observers *observers, struct observer *observer) {
    bool present[WIRE_CHIPS] = {false};
    observer->chips = false;
    for (const char *row = observers->chips; row && *row; row = strchr(row, '\n'), row = row ? row + 1 : row)
        report_chip(observers, observer, row, present);
    for (unsigned chip = 0; chip < WIRE_CHIPS; chip++) {
        if (present[chip] || !observer->known[chip])
            continue;
        observer->known[chip] = observer->marked[chip] = false;
        memset(observer->lines[chip], 0, sizeof observer->lines[chip]);
        add(observers, "gone gpiochip%u\n", chip);
    }
}

/* Takes up to `most` marked lines of a chip, whose marks are taken away. */
static size_t take_marked(struct observer *observer, unsigned chip, uint32_t *lines, size_t most) {
    size_t count = 0;
    for (uint32_t line = 0; line < UAPI_CHIP_LINES; line++) {
        uint64_t *marks = &observer->lines[chip][line / 64], bit = UINT64_C(1) << line % 64;
        if (!(*marks & bit))
            continue;
        if (count == most)
            return count;
        *marks &= ~bit;
        lines[count++] = line;
    }
    observer->marked[chip] = false;
    return count;
}

/* Puts the statements that ask what lines of a chip are: none of them changes anything, so none is kept. */
static void put_questions(struct machine *machine, unsigned chip, const uint32_t *lines, size_t count) {
    char text[160];
    for (size_t i = 0; i < count; i++) {
        int length = snprintf(text, sizeof text, "ioctl " FILES_OBSERVED "%u GET_LINEINFO 00*64 %02x%02x0000 00*188",
            chip, lines[i] & 0xff, lines[i] >> 8 & 0xff);
        machine_put(machine, text, (size_t)length, false);
        length = snprintf(text, sizeof text, "read gpiochip%u/sim_gpio%" PRIu32 "/value", chip, lines[i]);
        machine_put(machine, text, (size_t)length, false);
        length = snprintf(text, sizeof text, "read gpiochip%u/sim_gpio%" PRIu32 "/pull", chip, lines[i]);
        machine_put(machine, text, (size_t)length, false);
    }
}

/* What the machine says of a line. */
struct seen {
    bool has_info;
    unsigned char info[INFO_LENGTH];
    char level; /* `0`, `1` or `x` */
    bool is_up;
};

static bool take_seen(struct machine *machine, struct seen *seen) {
    memset(seen, 0, sizeof *seen);
    if (!machine_take(machine))
        return false;
    seen->has_info =
        machine_error(machine) == 0 && pieces_read(machine->text, seen->info, sizeof seen->info) == INFO_LENGTH;
    if (!machine_take(machine))
        return false;
    seen->level = machine->length == 2 && (machine->text[0] == '0' || machine->text[0] == '1') ? machine->text[0] : 'x';
    if (!machine_take(machine))
        return false;
    seen->is_up = strcmp(machine->text, "pull-up\n") == 0;
    return true;
}

static uint32_t debounce_of(const unsigned char *info) {
    uint32_t count = uapi_u32(info, INFO_COUNT_AT);
    for (uint32_t i = 0; i < count && i < UAPI_ATTRIBUTES; i++) {
        size_t at = INFO_ATTRIBUTES_AT + i * INFO_ATTRIBUTE;
        if (uapi_u32(info, at) == ATTRIBUTE_DEBOUNCE)
            return uapi_u32(info, at + ATTRIBUTE_VALUE_AT);
    }
    return 0;
}

/* Reports a line. One that isn't there any more is passed over: its chip has gone, or goes. */
static void report_line(struct broker *broker, unsigned chip, uint32_t line, const struct seen *seen) {
    char name[CONSUMER_ROOM] = "", consumer[CONSUMER_ROOM] = "", program[CONSUMER_ROOM] = "-";
    const struct file *request = files_request_of(&broker->files, chip, line);
    if (seen->level == 'x')
        return;
    add(&broker->observers, "line gpiochip%u %" PRIu32 " level=%c pull=%s read=%" PRIu64, chip, line, seen->level,
        seen->is_up ? "up" : "down", broker->counts.read[chip][line]);
    if (request)
        write_word(program, request->asker.name);
    add(&broker->observers, " pid=%ld program=%s", request ? (long)request->asker.pid : 0L, program);
    if (seen->has_info) {
        consumer_write(name, seen->info);
        consumer_write(consumer, seen->info + INFO_CONSUMER_AT);
        add(&broker->observers, " flags=0x%" PRIx64 " debounce=%" PRIu32 " name=%s consumer=%s",
            uapi_u64(seen->info, INFO_FLAGS_AT), debounce_of(seen->info), name, consumer);
    }
    add(&broker->observers, "\n");
}

/* Reports marked lines of a chip, at most `most` of them; `*reported` counts them. */
static bool report_lines(
    struct broker *broker, struct observer *observer, unsigned chip, size_t most, size_t *reported) {
    struct machine *machine = &broker->machine;
    uint32_t lines[ASKED_LINES];
    struct seen seen;
    size_t count = take_marked(observer, chip, lines, most < ASKED_LINES ? most : ASKED_LINES);
    *reported += count;
    if (count == 0)
        return true;
    if (!open_chip(broker, chip))
        return false;
    put_questions(machine, chip, lines, count);
    for (size_t i = 0; i < count; i++) {
        if (!take_seen(machine, &seen))
            return false;
        report_line(broker, chip, lines[i], &seen);
    }
    return true;
}

/* Reports the statements since the last response, or how many of them are lost. */
static void report_statements(struct broker *broker, struct observer *observer) {
    const struct recent *recent = &broker->record.recent;
    char program[CONSUMER_ROOM], printed[CONSUMER_ROOM];
    if (recent->count - observer->heard > RECENT_MOST) {
        add(&broker->observers, "lost %" PRIu64 "\n", recent->count - observer->heard - RECENT_MOST);
        observer->heard = recent->count - RECENT_MOST;
    }
    for (size_t reported = 0; reported < REPORTED_STATEMENTS && observer->heard < recent->count; reported++) {
        const struct recent_statement *statement = recent_at(recent, observer->heard++);
        write_word(program, statement->asker.pid ? statement->asker.name : "-");
        write_word(printed, statement->printed[0] ? statement->printed : "-");
        add(&broker->observers, "said %ld %s %s %s\n", (long)statement->asker.pid, program, printed, statement->text);
    }
}

/* Reports chips, lines, statements and the clock. */
static bool report_changes(struct broker *broker, struct observer *observer) {
    struct observers *observers = &broker->observers;
    size_t reported = 0;
    if (observer->reset)
        add(observers, "reset\n");
    observer->reset = false;
    if (observer->chips)
        report_chips(observers, observer);
    for (unsigned chip = 0; chip < WIRE_CHIPS && reported < REPORTED_LINES; chip++)
        while (observer->marked[chip] && reported < REPORTED_LINES)
            if (!report_lines(broker, observer, chip, REPORTED_LINES - reported, &reported))
                return false;
    report_statements(broker, observer);
    if (observer->clock && broker->manual)
        add(observers, "clock manual %" PRIu64 "\n", broker->now);
    else if (observer->clock)
        add(observers, "clock system\n");
    observer->clock = false;
    if (!observer->has_all && !has_marks(observer) && observer->heard == broker->record.recent.count) {
        observer->has_all = true;
        add(observers, "whole\n");
    }
    return true;
}

bool observers_report(struct broker *broker, struct client *client) {
    struct observer *observer = client->observer;
    uint64_t begin = clock_monotonic();
    broker->observers.length = 0;
    room_for(&broker->observers.text, &broker->observers.room, MOST_ROW);
    bool alive = report_changes(broker, observer);
    uint64_t end = clock_monotonic(), took = end - begin;
    uint64_t pause = observer->has_all ? PAUSE_FACTOR * took : took;
    if (observer->has_all && pause < PAUSE)
        pause = PAUSE;
    observer->due = end + (pause < PAUSE_MOST ? pause : PAUSE_MOST);
    return alive;
}
