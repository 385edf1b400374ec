/* Folders of the tree: they are made, removed and listed. */
#include <dirent.h>
#include <errno.h>
#include <stdarg.h>
#include <stdio.h>
#include <string.h>

#include "../broker.h"
#include "places.h"
#include "statements.h"
#include "texts.h"

/* Names that are tried in the served program, where statements of gpiosay have taken the first ones. */
#define MOST_TRIES 1024

static int make_device(struct broker *broker, const char *name) {
    struct tree_device made = {.number = nodes_free_number(&broker->tree)};
    struct place place = {.kind = PLACE_DEVICE, .device = &made};
    int error = EEXIST;
    for (unsigned tries = 0; error == EEXIST && tries < MOST_TRIES; tries++) {
        if (!nodes_write_name(made.machine_name, "gpio-sim.", made.number))
            return ENOSPC;
        error = statements_say(broker, "mkdir", &place, NULL);
        if (error == EEXIST)
            made.number++;
    }
    if (error == 0)
        nodes_add_device(&broker->tree, name, made.machine_name, made.number);
    return error;
}

static int make_bank(struct broker *broker, struct tree_device *device, const char *name) {
    struct tree_bank made = {.chip = NODE_NO_CHIP};
    struct place place = {.kind = PLACE_BANK, .device = device, .bank = &made};
    unsigned number = nodes_free_bank(device);
    int error = EEXIST;
    for (unsigned tries = 0; error == EEXIST && tries < MOST_TRIES; tries++, number++) {
        if (!nodes_write_name(made.machine_name, "node", number))
            return ENOSPC;
        error = statements_say(broker, "mkdir", &place, NULL);
    }
    if (error == 0)
        nodes_add_bank(device, name, made.machine_name);
    return error;
}

static int make_line(struct broker *broker, const struct place *bank, const char *name) {
    struct tree_line made = {0};
    struct place place = *bank;
    if (!texts_numbered(name, "line", &made.offset))
        return EINVAL;
    place.kind = PLACE_LINE;
    place.line = &made;
    int error = statements_say(broker, "mkdir", &place, NULL);
    if (error == 0)
        nodes_add_line(bank->bank, made.offset);
    return error;
}

static int make_hog(struct broker *broker, const struct place *line) {
    struct place place = *line;
    place.kind = PLACE_HOG;
    int error = statements_say(broker, "mkdir", &place, NULL);
    if (error == 0)
        line->line->hog = true;
    return error;
}

int tree_mkdir(struct broker *broker, const char *path) {
    const char *name;
    if (places_find(broker, path).kind != PLACE_NONE)
        return EEXIST;
    struct place parent = places_parent(broker, path, &name);
    switch (parent.kind) {
    case PLACE_NONE:
        return ENOENT;
    case PLACE_CONFIG:
        return make_device(broker, name);
    case PLACE_DEVICE:
        return make_bank(broker, parent.device, name);
    case PLACE_BANK:
        return make_line(broker, &parent, name);
    case PLACE_LINE:
        return strcmp(name, "hog") == 0 ? make_hog(broker, &parent) : EINVAL;
    default:
        return places_is_folder(&parent) ? EPERM : ENOTDIR;
    }
}

static bool is_empty(const struct place *place) {
    switch (place->kind) {
    case PLACE_DEVICE:
        return !place->device->banks;
    case PLACE_BANK:
        return !place->bank->lines;
    case PLACE_LINE:
        return !place->line->hog;
    default:
        return true;
    }
}

static void remove_node(struct tree *tree, const struct place *place) {
    switch (place->kind) {
    case PLACE_DEVICE:
        nodes_remove_device(tree, place->device);
        break;
    case PLACE_BANK:
        nodes_remove_bank(place->device, place->bank);
        break;
    case PLACE_LINE:
        nodes_remove_line(place->bank, place->line);
        break;
    default:
        place->line->hog = false;
        break;
    }
}

int tree_rmdir(struct broker *broker, const char *path) {
    struct place place = places_find(broker, path);
    if (place.kind == PLACE_NONE)
        return ENOENT;
    if (!places_is_folder(&place))
        return ENOTDIR;
    if (place.kind < PLACE_DEVICE || place.kind > PLACE_HOG)
        return EPERM;
    if (!is_empty(&place))
        return ENOTEMPTY;
    int error = statements_say(broker, "rmdir", &place, NULL);
    if (error == 0)
        remove_node(&broker->tree, &place);
    return error;
}

int tree_refuse_file(struct broker *broker, const char *path) {
    const char *name;
    struct place parent = places_parent(broker, path, &name);
    return parent.kind == PLACE_NONE ? ENOENT : EPERM;
}

/* A folder that is being listed. */
struct listing {
    struct broker *broker;
    void (*add)(void *to, const char *name);
    void *to;
};

__attribute__((format(printf, 2, 3))) static void add_name(const struct listing *listing, const char *form, ...) {
    char name[64];
    va_list values;
    va_start(values, form);
    vsnprintf(name, sizeof name, form, values);
    va_end(values);
    listing->add(listing->to, name);
}

/* The chips that are present; `any`: those of devices too. */
static void list_chips(const struct listing *listing, const char *front, bool any) {
    struct tree_device *device;
    for (unsigned chip = 0; chip < WIRE_CHIPS; chip++)
        if (listing->broker->home.present[chip] && (any || !places_bank_of_chip(listing->broker, chip, &device)))
            add_name(listing, "%s%u", front, chip);
}

static void list_live_devices(const struct listing *listing) {
    for (struct tree_device *device = listing->broker->tree.devices; device; device = device->next)
        if (device->live)
            add_name(listing, "gpio-sim.%u", device->number);
}

/* The system's own entries, except those that are the tree's too. */
static void list_system(const struct listing *listing, const char *path) {
    char whole[PATH_MAX], name[PATH_MAX];
    struct dirent *entry;
    DIR *folder = places_system_path(path, whole) ? opendir(whole) : NULL;
    while (folder && (entry = readdir(folder))) {
        snprintf(name, sizeof name, "%s/%s", strcmp(path, "/") == 0 ? "" : path, entry->d_name);
        if (entry->d_name[0] != '.' && !places_is_fixed(name) && strcmp(name, PLACES_CONFIG) != 0)
            listing->add(listing->to, entry->d_name);
    }
    if (folder)
        closedir(folder);
}

static void list_fixed(const struct listing *listing, const char *path) {
    size_t length = strcmp(path, "/") == 0 ? 0 : strlen(path);
    for (const char *const *fixed = places_fixed + 1; *fixed; fixed++)
        if (strncmp(*fixed, path, length) == 0 && (*fixed)[length] == '/' && !strchr(*fixed + length + 1, '/'))
            listing->add(listing->to, *fixed + length + 1);
    if (strcmp(path, "/kernel/config") == 0)
        listing->add(listing->to, "gpio-sim");
    else if (strcmp(path, PLACES_BUS) == 0)
        list_chips(listing, "gpiochip", true);
    else if (strcmp(path, PLACES_CHAR) == 0)
        list_chips(listing, WIRE_MAJOR_TEXT ":", true);
    else if (strcmp(path, PLACES_OTHERS) == 0)
        list_chips(listing, "gpiochip", false);
    else if (strcmp(path, PLACES_MODULE) == 0)
        listing->add(listing->to, "initstate");
    else if (strcmp(path, PLACES_PLATFORM) == 0)
        list_live_devices(listing);
    if (listing->broker->tree.has_system)
        list_system(listing, path);
}

static void list_nodes(const struct listing *listing, const struct place *place) {
    if (place->kind == PLACE_CONFIG)
        for (struct tree_device *device = listing->broker->tree.devices; device; device = device->next)
            listing->add(listing->to, device->name);
    else if (place->kind == PLACE_DEVICE)
        for (struct tree_bank *bank = place->device->banks; bank; bank = bank->next)
            listing->add(listing->to, bank->name);
    else if (place->kind == PLACE_BANK)
        for (struct tree_line *line = place->bank->lines; line; line = line->next)
            add_name(listing, "line%u", line->offset);
    else if (place->kind == PLACE_LINE && place->line->hog)
        listing->add(listing->to, "hog");
}

static void list_sysfs(const struct listing *listing, const struct place *place) {
    if (place->kind == PLACE_PLATFORM)
        for (struct tree_bank *bank = place->device->banks; bank; bank = bank->next)
            add_name(listing, "gpiochip%u", statements_chip_of(listing->broker, place->device, bank));
    else if (place->kind == PLACE_CHIP)
        for (unsigned offset = 0; offset < listing->broker->tree.line_counts[place->chip]; offset++)
            add_name(listing, "sim_gpio%u", offset);
}

int tree_list(struct broker *broker, const char *path, void (*add)(void *to, const char *name), void *to) {
    struct place place = places_find(broker, path);
    struct listing listing = {broker, add, to};
    if (place.kind == PLACE_NONE)
        return ENOENT;
    if (!places_is_folder(&place))
        return ENOTDIR;
    for (const struct place_leaf *leaf = places_leaves(place.kind); leaf->name; leaf++)
        add(to, leaf->name);
    if (place.kind == PLACE_FIXED)
        list_fixed(&listing, path);
    else if (place.kind < PLACE_PLATFORM)
        list_nodes(&listing, &place);
    else
        list_sysfs(&listing, &place);
    return broker->machine.ended ? ENODEV : 0;
}
