/* Actions on configfs and sysfs. */
#include <errno.h>
#include <stdio.h>
#include <string.h>
#include <unistd.h>

#include "paths.h"
#include "tree.h"
#include "world.h"

/* Remembers a folder that was made, for the list's end. */
static void remember(struct world *world, const char *folder) {
    pthread_mutex_lock(&world->lock);
    if (world->folder_count < FOLDERS_MOST)
        world->folders[world->folder_count++] = folder;
    pthread_mutex_unlock(&world->lock);
}

/* A value whose number differs from run to run: a chip's name and a device's lose theirs. */
static const char *without_number(const char *path, const char *value) {
    const char *name = strrchr(path, '/');
    if (name && strcmp(name, "/chip_name") == 0 && strncmp(value, "gpiochip", 8) == 0)
        return "gpiochip";
    return name && strcmp(name, "/dev_name") == 0 && strncmp(value, "gpio-sim.", 9) == 0 ? "gpio-sim" : value;
}

static void read_value(struct maker *maker, const char *path) {
    struct text value = {0};
    int error = tree_read(path, &value);
    text_add_error(&maker->results, error);
    if (!error && value.length)
        text_add(&maker->results, " %s", without_number(path, value.letters));
    text_free(&value);
}

/* Reads a short name into 32 bytes. */
static int read_name(const char *path, char *name) {
    struct text value = {0};
    int error = tree_read(path, &value);
    if (!error)
        snprintf(name, 32, "%s", value.letters ? value.letters : "");
    text_free(&value);
    return error;
}

/* Learns what the chip of a bank is called. */
static int learn_chip(struct chip *chip, const char *bank) {
    char path[PATH_ROOM];
    *chip = (struct chip){0};
    snprintf(path, sizeof path, CONFIGFS "/%.*s/dev_name", (int)strcspn(bank, "/"), bank);
    int error = read_name(path, chip->device);
    if (error)
        return error;
    snprintf(path, sizeof path, CONFIGFS "/%s/chip_name", bank);
    error = read_name(path, chip->name);
    if (!error && strncmp(chip->name, "gpiochip", 8) != 0)
        error = ENODEV;
    if (error)
        chip->name[0] = '\0';
    return error;
}

/* The file of a line of a chip. */
static void line_path(const struct world *world, const struct action *action, char *path) {
    const struct chip *chip = &world->chips[action->chip];
    snprintf(path, PATH_ROOM, PLATFORM "/%s/%s/sim_gpio%lu/%s", chip->device, chip->name, action->number, action->path);
}

static void put_value(struct maker *maker, const char *path, const char *value) {
    text_add_error(&maker->results, tree_write(path, value));
    usleep((useconds_t)maker->world->pause_microseconds);
}

void make_on_tree(struct maker *maker, const struct action *action) {
    char path[PATH_ROOM];
    struct world *world = maker->world;
    int error = 0;
    snprintf(path, sizeof path, CONFIGFS "/%s", action->path);
    if (action->verb == PUT || action->verb == GET)
        line_path(world, action, path);
    switch (action->verb) {
    case MKDIR:
        error = tree_mkdir(path);
        if (!error)
            remember(world, action->path);
        text_add_error(&maker->results, error);
        break;
    case RMDIR:
        text_add_error(&maker->results, tree_rmdir(path));
        break;
    case WRITE:
        text_add_error(&maker->results, tree_write(path, action->value));
        break;
    case PUT:
        put_value(maker, path, action->value);
        break;
    case CHIP:
        text_add_error(&maker->results, learn_chip(&world->chips[action->chip], action->path));
        break;
    default:
        read_value(maker, path);
    }
}
