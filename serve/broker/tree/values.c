/* Attributes and links of the tree: what they hold, and what may be written. */
#include <errno.h>
#include <stdio.h>
#include <string.h>
#include <unistd.h>

#include "../broker.h"
#include "places.h"
#include "statements.h"
#include "texts.h"

/* The most lines of a bank in the served program. */
#define MOST_LINES 512
/* Banks that are compared with each other: as many as chips fit. */
#define MOST_BANKS WIRE_CHIPS

int tree_stat(struct broker *broker, const char *path, struct stat *status) {
    struct place place = places_find(broker, path);
    memset(status, 0, sizeof *status);
    if (place.kind == PLACE_NONE)
        return ENOENT;
    status->st_uid = geteuid();
    status->st_gid = getegid();
    status->st_nlink = 1;
    if (places_is_folder(&place)) {
        status->st_mode = S_IFDIR | 0755;
    } else if (places_is_link(&place)) {
        status->st_mode = S_IFLNK | 0777;
    } else {
        status->st_mode = S_IFREG | (place.kind <= PLACE_LAST_FIXED ? 0444 : 0644);
        status->st_size = TREE_TEXT;
    }
    return 0;
}

int tree_read(struct broker *broker, const char *path, char text[TREE_TEXT]) {
    struct place place = places_find(broker, path);
    switch (place.kind) {
    case PLACE_NONE:
        return ENOENT;
    case PLACE_DEV_NAME:
        snprintf(text, TREE_TEXT, "gpio-sim.%u\n", place.device->number);
        return 0;
    case PLACE_CHIP_DEV:
        snprintf(text, TREE_TEXT, "%d:%u\n", WIRE_MAJOR, place.chip);
        return 0;
    case PLACE_UEVENT:
        snprintf(text, TREE_TEXT, "MAJOR=%d\nMINOR=%u\nDEVNAME=gpiochip%u\n", WIRE_MAJOR, place.chip, place.chip);
        return 0;
    case PLACE_INITSTATE:
        snprintf(text, TREE_TEXT, "live\n");
        return 0;
    case PLACE_NUM_LINES:
        if (place.bank->many) {
            snprintf(text, TREE_TEXT, "%u\n", place.bank->many);
            return 0;
        }
        return statements_say(broker, "read", &place, text);
    case PLACE_SYSTEM_FILE:
        return EIO;
    default:
        return places_is_folder(&place) ? EISDIR : statements_say(broker, "read", &place, text);
    }
}

/* Whether two banks of a device have one label, by which the driver would mix up their hogs. 0, EINVAL where they have,
 * or the error number. */
static int check_labels(struct broker *broker, struct tree_device *device) {
    char labels[MOST_BANKS][64], text[TREE_TEXT];
    unsigned count = 0;
    for (struct tree_bank *bank = device->banks; bank && count < MOST_BANKS; bank = bank->next) {
        struct place place = {.kind = PLACE_LABEL, .device = device, .bank = bank};
        int error = statements_say(broker, "read", &place, text);
        if (error)
            return error;
        if (strcmp(text, "\n") == 0)
            continue;
        snprintf(labels[count], sizeof labels[count], "%.63s", text);
        for (unsigned other = 0; other < count; other++)
            if (strcmp(labels[other], labels[count]) == 0)
                return EINVAL;
        count++;
    }
    return 0;
}

static int bring_up(struct broker *broker, const struct place *place) {
    struct tree_device *device = place->device;
    if (!device->banks)
        return ENODATA;
    /* (labels can only be the same where there are two banks) */
    int error = device->banks->next ? check_labels(broker, device) : 0;
    for (struct tree_bank *bank = device->banks; bank && error == 0; bank = bank->next)
        error = bank->many ? ENXIO : 0;
    if (error == 0)
        error = statements_write(broker, place, "1");
    if (error == ENOSPC)
        renewal_report_full(broker);
    if (error == 0)
        nodes_set_live(device, true);
    return error;
}

static int write_live(struct broker *broker, const struct place *place, const char *text) {
    bool is_wanted;
    if (texts_read_bool(text, &is_wanted))
        return EINVAL;
    if (is_wanted == place->device->live)
        return EPERM;
    if (is_wanted)
        return bring_up(broker, place);
    int error = statements_write(broker, place, "0");
    if (error == 0)
        nodes_set_live(place->device, false);
    return error;
}

/* The driver takes any number, and fails when such a device goes live. */
static int write_num_lines(struct broker *broker, const struct place *place, const char *text) {
    unsigned count;
    char value[16];
    int error = texts_read_unsigned(text, &count);
    if (error)
        return error;
    if (count == 0)
        return EINVAL;
    if (place->device->live)
        return EBUSY;
    if (count > MOST_LINES) {
        place->bank->many = count;
        return 0;
    }
    snprintf(value, sizeof value, "%u", count);
    error = statements_write(broker, place, value);
    if (error == 0)
        place->bank->many = 0;
    return error;
}

/* A name or a label. No statement takes one away: an empty text is taken where it is empty already. */
static int write_name(struct broker *broker, const struct place *place, const char *text) {
    char before[TREE_TEXT];
    if (place->device->live)
        return EBUSY;
    if (*text != 0)
        return statements_write(broker, place, text);
    int error = statements_say(broker, "read", place, before);
    return error ? error : strcmp(before, "\n") == 0 ? 0 : EINVAL;
}

static int write_direction(struct broker *broker, const struct place *place, const char *text) {
    return place->device->live ? EBUSY : statements_write(broker, place, text);
}

static int write_pull(struct broker *broker, const struct place *place, const char *text) {
    static const char *const pulls[] = {"pull-up", "pull-down"};
    for (size_t i = 0; i < sizeof pulls / sizeof *pulls; i++)
        if (texts_equal_line(text, pulls[i]))
            return statements_write(broker, place, pulls[i]);
    return EINVAL;
}

int tree_write(struct broker *broker, const char *path, const char *bytes, size_t length) {
    char text[TREE_TEXT];
    struct place place = places_find(broker, path);
    if (length >= sizeof text)
        return EINVAL;
    memcpy(text, bytes, length);
    text[length] = 0;
    switch (place.kind) {
    case PLACE_NONE:
        return ENOENT;
    case PLACE_LIVE:
        return write_live(broker, &place, text);
    case PLACE_NUM_LINES:
        return write_num_lines(broker, &place, text);
    case PLACE_LABEL:
    case PLACE_LINE_NAME:
    case PLACE_HOG_NAME:
        return write_name(broker, &place, texts_trim(text));
    case PLACE_HOG_DIRECTION:
        return write_direction(broker, &place, texts_trim(text));
    case PLACE_PULL:
        return write_pull(broker, &place, text);
    case PLACE_VALUE:
        return EPERM;
    default:
        return places_is_folder(&place) ? EISDIR : EACCES;
    }
}

/* Links are relative, as those of sysfs, so that they lead on wherever the tree is shown. */
int tree_readlink(struct broker *broker, const char *path, char *text, size_t size) {
    struct place place = places_find(broker, path);
    struct tree_device *device;
    if (!places_is_link(&place))
        return place.kind == PLACE_NONE ? ENOENT : EINVAL;
    if (place.kind == PLACE_SUBSYSTEM) {
        snprintf(text, size, "%s", place.device ? "../../../../bus/gpio" : "../../../bus/gpio");
        return 0;
    }
    if (place.kind == PLACE_SYSTEM_LINK) {
        char whole[PATH_MAX];
        ssize_t length = places_system_path(path, whole) ? readlink(whole, text, size - 1) : -1;
        if (length < 0)
            return ENOENT;
        text[length] = 0;
        return 0;
    }
    const char *up = texts_after(path, PLACES_BUS) ? "../../.." : "../..";
    if (places_bank_of_chip(broker, place.chip, &device))
        snprintf(text, size, "%s" PLACES_PLATFORM "/gpio-sim.%u/gpiochip%u", up, device->number, place.chip);
    else
        snprintf(text, size, "%s" PLACES_OTHERS "/gpiochip%u", up, place.chip);
    return 0;
}
