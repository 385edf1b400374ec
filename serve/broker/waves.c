#include "waves.h"

#include <errno.h>
#include <fcntl.h>
#include <inttypes.h>
#include <stdlib.h>
#include <string.h>

#include "consumer.h"
#include "pieces.h"
#include "report.h"
#include "room.h"

#define INFO_LENGTH 256

struct state {
    char level; /* 0, 1 or x */
    char holder[CONSUMER_ROOM];
};

struct wave {
    struct wave *next;
    unsigned chip, number;
    uint32_t offset;
    bool touched;
    char name[UAPI_NAME];
    struct state first, now;
};

bool waves_open(struct waves *waves, const char *path, uint64_t unit, const struct patience *patience) {
    memset(waves, 0, sizeof *waves);
    if (!path)
        return true;
    if (!output_open(&waves->dump, path, patience))
        return false;
    waves->changes = tmpfile();
    if (!waves->changes || fcntl(fileno(waves->changes), F_SETFD, FD_CLOEXEC)) {
        report("no temporary file for the waves: %s", strerror(errno));
        return false;
    }
    waves->unit = unit;
    return true;
}

void waves_begin(struct waves *waves, uint64_t now) {
    waves->start = now;
    waves->begun = true;
}

/* Writes a name: a byte that no reference can have as `_`. */
static void take_name(struct wave *wave, const unsigned char *bytes) {
    size_t length = strnlen((const char *)bytes, UAPI_NAME - 1);
    for (size_t i = 0; i < length; i++)
        wave->name[i] = bytes[i] < '!' || bytes[i] > '~' || strchr("[]:$", bytes[i]) ? '_' : (char)bytes[i];
    wave->name[length] = 0;
}

/* Puts the two statements that tell a line's state. */
static void put_questions(struct machine *machine, const struct wave *wave) {
    machine_putf(machine, "ioctl waves.%u GET_LINEINFO 00*64 %02x%02x%02x%02x 00*188", wave->chip, wave->offset & 0xff,
        wave->offset >> 8 & 0xff, wave->offset >> 16 & 0xff, wave->offset >> 24);
    machine_putf(machine, "read gpiochip%u/sim_gpio%" PRIu32 "/value", wave->chip, wave->offset);
}

/* Takes the answers to both. */
static bool take_state(struct machine *machine, struct wave *wave, struct state *state) {
    unsigned char info[INFO_LENGTH];
    memset(state, 0, sizeof *state);
    if (!machine_take(machine))
        return false;
    if (machine_error(machine) == 0 && pieces_read(machine->text, info, sizeof info) == INFO_LENGTH) {
        take_name(wave, info);
        consumer_write(state->holder, info + UAPI_NAME);
        if ((uapi_u64(info, 72) & 1) && !state->holder[0])
            strcpy(state->holder, "?");
    }
    if (!machine_take(machine))
        return false;
    state->level =
        machine->length == 2 && (machine->text[0] == '0' || machine->text[0] == '1') ? machine->text[0] : 'x';
    return true;
}

/* Writes what differs from the last state of a line. What the board did stands at time 0. */
static void write_change(struct waves *waves, struct wave *wave, const struct state *state, uint64_t now) {
    if (!waves->begun) {
        wave->first = wave->now = *state;
        return;
    }
    bool level = state->level != wave->now.level, holder = strcmp(state->holder, wave->now.holder) != 0;
    uint64_t time = now > waves->start ? (now - waves->start) / waves->unit : 0;
    if (!level && !holder)
        return;
    if (time < waves->last)
        time = waves->last;
    if (time > waves->last)
        fprintf(waves->changes, "#%" PRIu64 "\n", time);
    waves->last = time;
    if (level)
        fprintf(waves->changes, "%cl%u\n", state->level, wave->number);
    if (holder)
        fprintf(waves->changes, "s%s h%u\n", state->holder, wave->number);
    wave->now = *state;
}

/* Opens a chip, so that its lines can be asked for. */
static bool open_chip(struct waves *waves, struct machine *machine, unsigned chip) {
    if (waves->open[chip])
        return true;
    machine_putf(machine, "open waves.%u %u", chip, chip);
    if (!machine_take(machine) || machine_error(machine))
        return false;
    waves->open[chip] = true;
    return true;
}

static struct wave *find(struct waves *waves, unsigned chip, uint32_t offset) {
    for (struct wave *wave = waves->first; wave; wave = wave->next)
        if (wave->chip == chip && wave->offset == offset)
            return wave;
    return NULL;
}

/* Keeps a new line, after those before it in order of chips and offsets. */
static void add(struct waves *waves, struct wave *wave) {
    struct wave **at = &waves->first;
    while (*at && ((*at)->chip < wave->chip || ((*at)->chip == wave->chip && (*at)->offset < wave->offset)))
        at = &(*at)->next;
    wave->next = *at;
    wave->number = waves->count++;
    *at = wave;
}

void waves_touch(struct waves *waves, struct machine *machine, uint64_t now, unsigned chip, uint32_t offset) {
    struct state state;
    if (!waves->dump.file || chip >= WIRE_CHIPS)
        return;
    struct wave *wave = find(waves, chip, offset);
    if (wave) {
        wave->touched = true;
        return;
    }
    if (!open_chip(waves, machine, chip))
        return;
    wave = room_new(sizeof *wave);
    wave->chip = chip;
    wave->offset = offset;
    wave->touched = true;
    put_questions(machine, wave);
    if (!take_state(machine, wave, &state) || state.level == 'x') {
        free(wave); /* no line of this chip, or nobody answers */
        return;
    }
    add(waves, wave);
    wave->first = wave->now = waves->late[chip] ? (struct state){.level = 'x'} : state;
    write_change(waves, wave, &state, now);
}

void waves_touch_all(struct waves *waves) {
    for (struct wave *wave = waves->first; wave; wave = wave->next)
        wave->touched = true;
}

bool waves_sample(struct waves *waves, struct machine *machine, uint64_t now) {
    struct state state;
    for (struct wave *wave = waves->first; wave; wave = wave->next) {
        if (!wave->touched || !waves->open[wave->chip])
            continue;
        put_questions(machine, wave);
        if (!take_state(machine, wave, &state))
            return false;
        write_change(waves, wave, &state, now);
        wave->touched = false;
    }
    return true;
}

static bool lose_chip(struct waves *waves, struct machine *machine, uint64_t now, unsigned chip) {
    const struct state none = {.level = 'x'};
    for (struct wave *wave = waves->first; wave; wave = wave->next)
        if (wave->chip == chip)
            write_change(waves, wave, &none, now);
    waves->open[chip] = false;
    machine_putf(machine, "close waves.%u", chip);
    return machine_take(machine);
}

bool waves_take_chips(struct waves *waves, struct machine *machine, uint64_t now, const bool present[WIRE_CHIPS]) {
    for (unsigned chip = 0; waves->dump.file && chip < WIRE_CHIPS; chip++) {
        if (present[chip] && !waves->known[chip]) {
            waves->known[chip] = true;
            waves->late[chip] = waves->begun;
        }
        if (waves->open[chip] && !present[chip] && !lose_chip(waves, machine, now, chip))
            return false;
    }
    return true;
}

static void write_header(const struct waves *waves, FILE *out) {
    fprintf(out, "$version gpioserve $end\n$comment start %" PRIu64 " $end\n$timescale 1 %s $end\n", waves->start,
        waves->unit == 1 ? "ns" : "us");
    for (const struct wave *wave = waves->first, *before = NULL; wave; before = wave, wave = wave->next) {
        char name[UAPI_NAME + 16];
        if (!before || before->chip != wave->chip)
            fprintf(out, "%s$scope module gpiochip%u $end\n", before ? "$upscope $end\n" : "", wave->chip);
        if (wave->name[0])
            snprintf(name, sizeof name, "%s", wave->name);
        else
            snprintf(name, sizeof name, "gpiochip%u:%" PRIu32, wave->chip, wave->offset);
        fprintf(
            out, "$var wire 1 l%u %s $end\n$var string 1 h%u %s:holder $end\n", wave->number, name, wave->number, name);
    }
    fprintf(out, "%s$enddefinitions $end\n#0\n$dumpvars\n", waves->first ? "$upscope $end\n" : "");
    for (const struct wave *wave = waves->first; wave; wave = wave->next)
        fprintf(out, "%cl%u\ns%s h%u\n", wave->first.level, wave->number, wave->first.holder, wave->number);
    fputs("$end\n", out);
}

static void write_changes(const struct waves *waves, FILE *out, uint64_t now) {
    char block[4096];
    size_t length;
    uint64_t end = now > waves->start ? (now - waves->start) / waves->unit : 0;
    rewind(waves->changes);
    while ((length = fread(block, 1, sizeof block, waves->changes)) > 0)
        fwrite(block, 1, length, out);
    if (end > waves->last)
        fprintf(out, "#%" PRIu64 "\n", end);
}

bool waves_close(struct waves *waves, uint64_t now) {
    FILE *out = waves->dump.file;
    bool good = true;
    if (out && waves->changes) {
        write_header(waves, out);
        write_changes(waves, out, now);
        good = !ferror(waves->changes);
        if (!good)
            report("the temporary file for the waves could not be written: is the disk full?");
    }
    if (waves->changes)
        fclose(waves->changes);
    while (waves->first) {
        struct wave *next = waves->first->next;
        free(waves->first);
        waves->first = next;
    }
    return output_close(&waves->dump) && good;
}
