#include "places.h"

#include <stdio.h>
#include <string.h>
#include <sys/stat.h>

#include "../broker.h"
#include "statements.h"
#include "texts.h"

/* The most parts of a path in a folder of the tree. */
#define MOST_PARTS 6

const char *const places_fixed[] = {"/", "/bus", "/bus/gpio", PLACES_BUS, "/dev", PLACES_CHAR, "/devices",
    PLACES_PLATFORM, PLACES_OTHERS, "/kernel", "/kernel/config", "/module", PLACES_MODULE, NULL};

/* The parts of a path behind a folder, in a copy. */
struct parts {
    char copy[PATH_MAX];
    char *at[MOST_PARTS];
    int count; /* or more than MOST_PARTS where there are more, or the path is too long */
};

static void divide(struct parts *parts, const char *path) {
    char *rest = NULL;
    parts->count = 0;
    if (snprintf(parts->copy, sizeof parts->copy, "%s", path) >= (int)sizeof parts->copy)
        parts->count = MOST_PARTS + 1;
    for (char *part = strtok_r(parts->copy, "/", &rest); part && parts->count <= MOST_PARTS;
         part = strtok_r(NULL, "/", &rest)) {
        if (parts->count < MOST_PARTS)
            parts->at[parts->count] = part;
        parts->count++;
    }
}

static const struct place_leaf device_leaves[] = {
    {"live", PLACE_LIVE}, {"dev_name", PLACE_DEV_NAME}, {NULL, PLACE_NONE}};
static const struct place_leaf bank_leaves[] = {
    {"chip_name", PLACE_CHIP_NAME}, {"label", PLACE_LABEL}, {"num_lines", PLACE_NUM_LINES}, {NULL, PLACE_NONE}};
static const struct place_leaf line_leaves[] = {{"name", PLACE_LINE_NAME}, {NULL, PLACE_NONE}};
static const struct place_leaf hog_leaves[] = {
    {"name", PLACE_HOG_NAME}, {"direction", PLACE_HOG_DIRECTION}, {NULL, PLACE_NONE}};
static const struct place_leaf chip_leaves[] = {
    {"dev", PLACE_CHIP_DEV}, {"uevent", PLACE_UEVENT}, {"subsystem", PLACE_SUBSYSTEM}, {NULL, PLACE_NONE}};
static const struct place_leaf sim_line_leaves[] = {{"pull", PLACE_PULL}, {"value", PLACE_VALUE}, {NULL, PLACE_NONE}};

const struct place_leaf *places_leaves(enum place_kind kind) {
    static const struct place_leaf none[] = {{NULL, PLACE_NONE}};
    switch (kind) {
    case PLACE_DEVICE:
        return device_leaves;
    case PLACE_BANK:
        return bank_leaves;
    case PLACE_LINE:
        return line_leaves;
    case PLACE_HOG:
        return hog_leaves;
    case PLACE_CHIP:
        return chip_leaves;
    case PLACE_SIM_LINE:
        return sim_line_leaves;
    default:
        return none;
    }
}

static enum place_kind leaf_of(enum place_kind folder, const char *name) {
    const struct place_leaf *leaf = places_leaves(folder);
    while (leaf->name && strcmp(leaf->name, name) != 0)
        leaf++;
    return leaf->kind;
}

/* Goes one folder down in configfs, or to one of its attributes. */
static void enter_config(struct tree *tree, struct place *place, const char *name) {
    enum place_kind folder = place->kind;
    unsigned offset;
    place->kind = leaf_of(folder, name);
    if (place->kind != PLACE_NONE)
        return;
    if (folder == PLACE_CONFIG && (place->device = nodes_device(tree, name)))
        place->kind = PLACE_DEVICE;
    else if (folder == PLACE_DEVICE && (place->bank = nodes_bank(place->device, name)))
        place->kind = PLACE_BANK;
    else if (folder == PLACE_BANK && texts_numbered(name, "line", &offset) &&
             (place->line = nodes_line(place->bank, offset)))
        place->kind = PLACE_LINE;
    else if (folder == PLACE_LINE && place->line->hog && strcmp(name, "hog") == 0)
        place->kind = PLACE_HOG;
}

static void find_config(struct tree *tree, const char *rest, struct place *place) {
    struct parts parts;
    divide(&parts, rest);
    place->kind = parts.count <= MOST_PARTS ? PLACE_CONFIG : PLACE_NONE;
    for (int i = 0; i < parts.count && place->kind != PLACE_NONE; i++)
        enter_config(tree, place, parts.at[i]);
}

static bool is_present(const struct broker *broker, unsigned chip) {
    return chip < WIRE_CHIPS && broker->home.present[chip];
}

/* Goes on in sysfs from a device, or from the folder of the chips without one. */
static void enter_devices(struct broker *broker, struct place *place, const char *name) {
    enum place_kind folder = place->kind;
    struct tree_device *device;
    place->kind = leaf_of(folder, name);
    if (place->kind != PLACE_NONE)
        return;
    if ((folder == PLACE_PLATFORM || folder == PLACE_FIXED) && texts_numbered(name, "gpiochip", &place->chip) &&
        is_present(broker, place->chip)) {
        place->bank = places_bank_of_chip(broker, place->chip, &device);
        place->kind = device == place->device ? PLACE_CHIP : PLACE_NONE;
    } else if (folder == PLACE_CHIP && texts_numbered(name, "sim_gpio", &place->offset) &&
               place->offset < broker->tree.line_counts[place->chip]) {
        place->kind = PLACE_SIM_LINE;
    }
}

static void find_devices(struct broker *broker, const char *rest, bool is_platform, struct place *place) {
    struct parts parts;
    unsigned number;
    int next = 0;
    divide(&parts, rest);
    if (parts.count == 0 || parts.count > MOST_PARTS)
        return;
    place->kind = PLACE_FIXED;
    if (is_platform) {
        if (texts_numbered(parts.at[next++], "gpio-sim.", &number))
            place->device = nodes_live_device(&broker->tree, number);
        place->kind = place->device ? PLACE_PLATFORM : PLACE_NONE;
    }
    for (; next < parts.count && place->kind != PLACE_NONE; next++)
        enter_devices(broker, place, parts.at[next]);
}

struct tree_bank *places_bank_of_chip(struct broker *broker, unsigned chip, struct tree_device **device) {
    for (*device = broker->tree.devices; *device; *device = (*device)->next)
        for (struct tree_bank *bank = (*device)->live ? (*device)->banks : NULL; bank; bank = bank->next)
            if (statements_chip_of(broker, *device, bank) == chip)
                return bank;
    return NULL;
}

bool places_is_fixed(const char *path) {
    for (const char *const *fixed = places_fixed; *fixed; fixed++)
        if (strcmp(path, *fixed) == 0)
            return true;
    return false;
}

bool places_system_path(const char *path, char whole[PATH_MAX]) {
    return snprintf(whole, PATH_MAX, "/sys%s", path) < PATH_MAX;
}

/* What the system has in one of the folders that are always there. The broker is in no name space in which the tree
 * stands at /sys, so that it asks nothing of itself. */
static void find_system(const char *path, struct place *place) {
    char folder[PATH_MAX], whole[PATH_MAX];
    struct stat status;
    const char *last = strrchr(path, '/');
    snprintf(folder, sizeof folder, "%.*s", last == path ? 1 : (int)(last - path), path);
    if (!places_is_fixed(folder) || !places_system_path(path, whole) || lstat(whole, &status))
        return;
    place->kind = S_ISDIR(status.st_mode)   ? PLACE_SYSTEM_FOLDER
                  : S_ISLNK(status.st_mode) ? PLACE_SYSTEM_LINK
                                            : PLACE_SYSTEM_FILE;
}

struct place places_find(struct broker *broker, const char *path) {
    struct place place = {.kind = PLACE_NONE};
    const char *rest;
    if (places_is_fixed(path)) {
        place.kind = PLACE_FIXED;
    } else if ((rest = texts_after(path, PLACES_CONFIG)) && (*rest == 0 || *rest == '/')) {
        find_config(&broker->tree, rest, &place);
    } else if (texts_after(path, PLACES_PLATFORM "/gpio-sim.")) {
        find_devices(broker, path + strlen(PLACES_PLATFORM), true, &place);
    } else if ((rest = texts_after(path, PLACES_OTHERS "/"))) {
        find_devices(broker, rest, false, &place);
    } else if (texts_numbered(path, PLACES_BUS "/gpiochip", &place.chip) ||
               texts_numbered(path, PLACES_CHAR "/" WIRE_MAJOR_TEXT ":", &place.chip)) {
        place.kind = is_present(broker, place.chip) ? PLACE_CHIP_LINK : PLACE_NONE;
    } else if (strcmp(path, PLACES_MODULE "/initstate") == 0) {
        place.kind = PLACE_INITSTATE;
    } else if (broker->tree.has_system && *path == '/') {
        find_system(path, &place);
    }
    return place;
}

struct place places_parent(struct broker *broker, const char *path, const char **name) {
    char folder[PATH_MAX];
    const char *last = strrchr(path, '/');
    *name = last ? last + 1 : path;
    if (!last || last == path || snprintf(folder, sizeof folder, "%s", path) >= (int)sizeof folder)
        return (struct place){.kind = PLACE_NONE};
    folder[last - path] = 0;
    return places_find(broker, folder);
}

bool places_is_folder(const struct place *place) {
    return place->kind != PLACE_NONE && place->kind <= PLACE_LAST_FOLDER;
}

bool places_is_link(const struct place *place) {
    return place->kind > PLACE_LAST_FOLDER && place->kind <= PLACE_LAST_LINK;
}
