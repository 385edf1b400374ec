#include "items.h"

#include <inttypes.h>
#include <string.h>

#include "../uapi.h"

void items_print_events(FILE *out, const unsigned char *bytes, size_t length) {
    for (size_t at = 0; at + UAPI_EVENT <= length; at += UAPI_EVENT) {
        const unsigned char *event = bytes + at;
        fprintf(out, "%" PRIu64 " %s %" PRIu32 " %" PRIu32 " %" PRIu32 "\n", uapi_u64(event, 0),
            uapi_u32(event, 8) == 1 ? "rising" : "falling", uapi_u32(event, 12), uapi_u32(event, 16),
            uapi_u32(event, 20));
    }
}

static const char *kind_of(uint32_t number) {
    switch (number) {
    case 1:
        return "requested";
    case 2:
        return "released";
    default:
        return "config";
    }
}

void items_print_changes(FILE *out, const unsigned char *bytes, size_t length) {
    for (size_t at = 0; at + UAPI_CHANGE <= length; at += UAPI_CHANGE) {
        const unsigned char *change = bytes + at;
        fprintf(out, "%" PRIu64 " %s %" PRIu32 " 0x%" PRIx64 "\n", uapi_u64(change, 256),
            kind_of(uapi_u32(change, 264)), uapi_u32(change, 64), uapi_u64(change, 72));
    }
}

static void write_number(unsigned char *bytes, uint64_t number, size_t length) {
    for (size_t i = 0; i < length; i++)
        bytes[i] = (unsigned char)(number >> 8 * i);
}

size_t items_read_events1(const char *text, unsigned char *bytes, size_t room) {
    size_t length = 0;
    while (text && *text && length + UAPI_EVENT1 <= room) {
        uint64_t time;
        char word[8];
        if (sscanf(text, "%" SCNu64 " %7s", &time, word) != 2)
            break;
        memset(bytes + length, 0, UAPI_EVENT1);
        write_number(bytes + length, time, 8);
        write_number(bytes + length + 8, word[0] == 'r' ? 1 : 2, 4);
        length += UAPI_EVENT1;
        text = strchr(text, '\n');
        if (text)
            text++;
    }
    return length;
}

size_t items_room_for_changes1(size_t room) {
    size_t count = 1;
    if (room < UAPI_CHANGE1)
        return room;
    while (room >= count * UAPI_CHANGE1 + UAPI_CHANGE)
        count++;
    return count * UAPI_CHANGE;
}

/* The flags of a line as version 1 has them. */
static uint32_t flags1_of(uint64_t flags) {
    /* the bits of version 2, each at the place of its bit in version 1: held by somebody, output, active low, open
     * drain, open source, pull-up, pull-down, no bias */
    static const unsigned bits[] = {0, 3, 1, 6, 7, 8, 9, 10};
    uint32_t made = 0;
    for (size_t i = 0; i < sizeof bits / sizeof *bits; i++)
        made |= (uint32_t)(flags >> bits[i] & 1) << i;
    return made;
}

/* Where changes have their parts: line, flags, name with consumer, time, kind. */
enum { LINE2 = 64, FLAGS2 = 72, NAMES2 = 0, TIME2 = 256, KIND2 = 264 };
enum { LINE1 = 0, FLAGS1 = 4, NAMES1 = 8, TIME1 = 72, KIND1 = 80 };

size_t items_make_changes1(unsigned char *bytes, size_t length) {
    size_t out = 0;
    for (size_t at = 0; at + UAPI_CHANGE <= length; at += UAPI_CHANGE, out += UAPI_CHANGE1) {
        const unsigned char *change = bytes + at;
        unsigned char made[UAPI_CHANGE1] = {0};
        write_number(made + LINE1, uapi_u32(change, LINE2), 4);
        write_number(made + FLAGS1, flags1_of(uapi_u64(change, FLAGS2)), 4);
        memcpy(made + NAMES1, change + NAMES2, 2 * UAPI_NAME);
        write_number(made + TIME1, uapi_u64(change, TIME2), 8);
        write_number(made + KIND1, uapi_u32(change, KIND2), 4);
        memcpy(bytes + out, made, sizeof made);
    }
    return out;
}
