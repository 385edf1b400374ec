/* What a path of the tree names. */
#ifndef PLACES_H
#define PLACES_H

#include <limits.h>

#include "nodes.h"

#define PLACES_CONFIG "/kernel/config/gpio-sim"
#define PLACES_PLATFORM "/devices/platform"
/* Chips that belong to no device of gpio-sim. */
#define PLACES_OTHERS "/devices/gpioserve"
#define PLACES_BUS "/bus/gpio/devices"
#define PLACES_CHAR "/dev/char"
#define PLACES_MODULE "/module/gpio_sim"

enum place_kind {
    PLACE_NONE,
    /* Folders. */
    PLACE_FIXED,         /* one that is always there */
    PLACE_SYSTEM_FOLDER, /* an entry of the system's own /sys */
    PLACE_CONFIG,        /* that of all devices */
    PLACE_DEVICE,
    PLACE_BANK,
    PLACE_LINE,
    PLACE_HOG,
    PLACE_PLATFORM, /* a live device */
    PLACE_CHIP,
    PLACE_SIM_LINE,
    PLACE_LAST_FOLDER = PLACE_SIM_LINE,
    /* Links. */
    PLACE_CHIP_LINK,
    PLACE_SUBSYSTEM,
    PLACE_SYSTEM_LINK,
    PLACE_LAST_LINK = PLACE_SYSTEM_LINK,
    /* Attributes that can only be read. */
    PLACE_DEV_NAME,
    PLACE_CHIP_NAME,
    PLACE_CHIP_DEV,
    PLACE_UEVENT,
    PLACE_INITSTATE,
    PLACE_SYSTEM_FILE,
    PLACE_LAST_FIXED = PLACE_SYSTEM_FILE,
    /* Attributes that can be written too. */
    PLACE_LIVE,
    PLACE_NUM_LINES,
    PLACE_LABEL,
    PLACE_LINE_NAME,
    PLACE_HOG_NAME,
    PLACE_HOG_DIRECTION,
    PLACE_PULL,
    PLACE_VALUE
};

struct place {
    enum place_kind kind;
    struct tree_device *device; /* of its kind and of those below it; else NULL, as for the two that follow */
    struct tree_bank *bank;
    struct tree_line *line;
    unsigned chip, offset; /* below a chip's folder */
};

/* What a path names; of kind PLACE_NONE where there is nothing. */
struct place places_find(struct broker *broker, const char *path);

/* What the folder of a path is, and the path's last part, which stands in the path. */
struct place places_parent(struct broker *broker, const char *path, const char **name);

bool places_is_folder(const struct place *place);
bool places_is_link(const struct place *place);

/* A name in a folder, and what it is. */
struct place_leaf {
    const char *name; /* NULL ends a list */
    enum place_kind kind;
};

/* The attributes and links that each folder of a kind has. */
const struct place_leaf *places_leaves(enum place_kind kind);

/* The folders that are always there; NULL ends the list. */
extern const char *const places_fixed[];
bool places_is_fixed(const char *path);

/* The bank that a present chip is, and its device; NULL where it is of none. The served program is asked for the chips
 * of banks that went live. */
struct tree_bank *places_bank_of_chip(struct broker *broker, unsigned chip, struct tree_device **device);

/* The path of an entry of the system's own /sys. False where it is too long. */
bool places_system_path(const char *path, char whole[PATH_MAX]);

#endif
