/* Actions on open files. */
#include <errno.h>
#include <fcntl.h>
#include <linux/gpio.h>
#include <poll.h>
#include <stdio.h>
#include <string.h>
#include <sys/ioctl.h>
#include <time.h>
#include <unistd.h>

#include "commands.h"
#include "world.h"

/* Gives a new descriptor its name. What is printed of it is how many the maker has made with it. */
static int take_in(struct maker *maker, int number, int descriptor, enum kind kind) {
    struct file *file = &maker->world->files[number];
    int flags = fcntl(descriptor, F_GETFL);
    if (flags >= 0)
        fcntl(descriptor, F_SETFL, flags | O_NONBLOCK);
    file->kind = kind;
    file->watch = 0;
    atomic_store(&file->descriptor, descriptor);
    return ++maker->made;
}

/* Whether the name of the file that an action makes is free. Else the result says so, and nothing is called. */
static bool is_free(struct maker *maker, const struct action *action) {
    bool is_open = atomic_load(&maker->world->files[action->made].descriptor) >= 0;
    if (is_open)
        text_add(&maker->results, "name taken");
    return !is_open;
}

static void open_chip(struct maker *maker, const struct action *action) {
    char path[64];
    const struct chip *chip = &maker->world->chips[action->chip];
    if (!is_free(maker, action))
        return;
    snprintf(path, sizeof path, "/dev/%s", chip->name[0] ? chip->name : "gpiochip-none");
    int descriptor = open(path, O_RDWR | O_CLOEXEC);
    text_add_error(&maker->results, descriptor < 0 ? errno : 0);
    if (descriptor >= 0)
        text_add(&maker->results, " %d", take_in(maker, action->made, descriptor, OF_CHIP));
}

/* Replaces the name of a chip by `gpiochip`, and the device's number in a label that the driver made of it. */
static void hide_names(const struct world *world, struct gpiochip_info *info) {
    for (size_t i = 0; i < NAMES_MOST; i++) {
        const struct chip *chip = &world->chips[i];
        size_t length = strlen(chip->device);
        if (chip->name[0] && strncmp(info->name, chip->name, sizeof info->name) == 0) {
            memset(info->name, 0, sizeof info->name);
            memcpy(info->name, "gpiochip", 8);
        }
        if (length > 8 && strncmp(info->label, chip->device, length) == 0 && strchr("-:", info->label[length]) &&
            info->label[length]) {
            memmove(info->label + 8, info->label + length, sizeof info->label - length);
            memset(info->label + sizeof info->label - (length - 8), 0, length - 8);
        }
    }
}

/* Takes in what a command that succeeded has made, and what differs from run to run out of its bytes. */
static void finish_command(struct maker *maker, const struct action *action, unsigned char *bytes) {
    enum kind kind;
    size_t place;
    int descriptor;
    struct file *file = &maker->world->files[action->file];
    if (commands_make(action->number, &kind, &place)) {
        memcpy(&descriptor, bytes + place, sizeof descriptor);
        descriptor = take_in(maker, action->made, descriptor, kind);
        memcpy(bytes + place, &descriptor, sizeof descriptor);
    }
    if (action->number == GPIO_GET_CHIPINFO_IOCTL)
        hide_names(maker->world, (struct gpiochip_info *)(void *)bytes);
    if (commands_watch(action->number) && file->watch == 0)
        file->watch = commands_watch(action->number);
}

/* The buffer ends where memory ends, so a command that goes past it fails. Bytes are printed where they changed. */
static void command_file(struct maker *maker, const struct action *action) {
    unsigned char *bytes = maker->buffer_end - action->length;
    if (action->made != NO_NAME && !is_free(maker, action))
        return;
    if (action->length)
        memcpy(bytes, action->bytes, action->length);
    int descriptor = atomic_load(&maker->world->files[action->file].descriptor);
    int error = ioctl(descriptor, action->number, bytes) < 0 ? errno : 0;
    text_add_error(&maker->results, error);
    if (!error)
        finish_command(maker, action, bytes);
    if (action->length && memcmp(bytes, action->bytes, action->length) != 0) {
        size_t size = _IOC_SIZE(action->number);
        text_add(&maker->results, " ");
        text_add_bytes(&maker->results, bytes, size < action->length ? size : action->length);
    }
}

/* A time of this list becomes 0, or 1 if it is one of the real clock. */
static void hide_time(const struct world *world, unsigned char *bytes) {
    uint64_t time;
    memcpy(&time, bytes, sizeof time);
    if (time >= world->monotonic && time <= world_clock(CLOCK_MONOTONIC))
        time = 0;
    else if (time >= world->realtime && time <= world_clock(CLOCK_REALTIME))
        time = 1;
    memcpy(bytes, &time, sizeof time);
}

static void read_file(struct maker *maker, const struct action *action) {
    const struct file *file = &maker->world->files[action->file];
    size_t length, place;
    ssize_t got = read(atomic_load(&file->descriptor), maker->scratch, action->number);
    text_add_error(&maker->results, got < 0 ? errno : 0);
    if (got < 0)
        return;
    commands_item(file->kind, file->watch, &length, &place);
    for (size_t at = 0; at + length <= (size_t)got; at += length)
        hide_time(maker->world, maker->scratch + at + place);
    text_add(&maker->results, " ");
    text_add_bytes(&maker->results, maker->scratch, (size_t)got);
}

static void poll_file(struct maker *maker, const struct action *action) {
    struct pollfd poll_of = {atomic_load(&maker->world->files[action->file].descriptor), POLLIN, 0};
    if (poll_of.fd < 0) { /* (poll passes over it) */
        text_add_error(&maker->results, EBADF);
        return;
    }
    int count = poll(&poll_of, 1, 0);
    text_add_error(&maker->results, count < 0 ? errno : 0);
    if (count == 0)
        text_add(&maker->results, " -");
    text_add(&maker->results, "%s%s%s%s", poll_of.revents & POLLIN ? " IN" : "",
        poll_of.revents & POLLERR ? " ERR" : "", poll_of.revents & POLLHUP ? " HUP" : "",
        poll_of.revents & POLLNVAL ? " NVAL" : "");
}

static void close_file(struct maker *maker, const struct action *action) {
    int descriptor = atomic_exchange(&maker->world->files[action->file].descriptor, -1);
    text_add_error(&maker->results, close(descriptor) ? errno : 0);
    usleep((useconds_t)maker->world->pause_microseconds);
}

void make_on_file(struct maker *maker, const struct action *action) {
    switch (action->verb) {
    case OPEN:
        open_chip(maker, action);
        break;
    case IOCTL:
        command_file(maker, action);
        break;
    case EVENTS:
        read_file(maker, action);
        break;
    case POLL:
        poll_file(maker, action);
        break;
    default:
        close_file(maker, action);
    }
}
