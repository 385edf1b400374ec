#include "mockup.h"

#include <errno.h>
#include <stdarg.h>
#include <stdbool.h>
#include <stdio.h>
#include <stdlib.h>
#include <string.h>

#include "../say/say.h"

#define EXPORTED __attribute__((visibility("default")))

/* Chips have a letter each. */
#define MOST_CHIPS 26
/* The longest statement, with its zero: names are short. */
#define MOST_STATEMENT 128

struct chip {
    unsigned number, lines; /* lines: those that have names */
    char name[16], path[32];
};

struct gpio_mockup {
    int references;
    struct say say;
    char device[16]; /* of the machine's tree; empty where there are no chips */
    unsigned count;
    struct chip chips[MOST_CHIPS];
};

/* Says a statement. What it printed stands in `say.text` up to the next one. -1 with errno where it is refused. */
__attribute__((format(printf, 2, 3))) static int say(struct gpio_mockup *mockup, const char *form, ...) {
    char statement[MOST_STATEMENT];
    va_list values;
    va_start(values, form);
    int length = vsnprintf(statement, sizeof statement, form, values);
    va_end(values);
    int error = length < 0 || (size_t)length >= sizeof statement ? EINVAL : 0;
    if (error == 0 && mockup->say.connection < 0)
        error = say_open(&mockup->say, NULL);
    if (error == 0)
        error = say_statement(&mockup->say, statement);
    if (error == 0)
        return 0;
    errno = error < 0 ? ENODEV : error;
    return -1;
}

EXPORTED struct gpio_mockup *gpio_mockup_new(void) {
    struct gpio_mockup *mockup = calloc(1, sizeof *mockup);
    if (mockup) {
        mockup->references = 1;
        mockup->say.connection = -1;
    }
    return mockup;
}

EXPORTED void gpio_mockup_ref(struct gpio_mockup *mockup) {
    mockup->references++;
}

EXPORTED void gpio_mockup_unref(struct gpio_mockup *mockup) {
    if (--mockup->references > 0)
        return;
    if (mockup->device[0])
        gpio_mockup_remove(mockup);
    say_close(&mockup->say);
    free(mockup);
}

/* Makes a device of the machine's tree with a name that no other context has. */
static int make_device(struct gpio_mockup *mockup) {
    char name[sizeof mockup->device];
    for (unsigned number = 0; number < 1000; number++) {
        snprintf(name, sizeof name, "mockup%u", number);
        if (say(mockup, "mkdir %s", name) == 0) {
            memcpy(mockup->device, name, sizeof name);
            return 0;
        }
        if (errno != EEXIST)
            return -1;
    }
    return -1;
}

static int name_line(struct gpio_mockup *mockup, char letter, unsigned offset) {
    if (say(mockup, "mkdir %s/%c/line%u", mockup->device, letter, offset))
        return -1;
    return say(mockup, "write %s/%c/line%u/name gpio-mockup-%c-%u", mockup->device, letter, offset, letter, offset);
}

/* Describes the next chip. */
static int make_chip(struct gpio_mockup *mockup, unsigned lines, bool is_named) {
    char letter = (char)('A' + mockup->count);
    struct chip *chip = &mockup->chips[mockup->count];
    if (say(mockup, "mkdir %s/%c", mockup->device, letter))
        return -1;
    *chip = (struct chip){0};
    mockup->count++;
    if (say(mockup, "write %s/%c/num_lines %u", mockup->device, letter, lines) ||
        say(mockup, "write %s/%c/label gpio-mockup-%c", mockup->device, letter, letter))
        return -1;
    for (unsigned offset = 0; is_named && offset < lines; offset++) {
        if (name_line(mockup, letter, offset))
            return -1;
        chip->lines = offset + 1;
    }
    return 0;
}

/* Reads under which numbers the chips are there. */
static int find_chips(struct gpio_mockup *mockup) {
    for (unsigned index = 0; index < mockup->count; index++) {
        struct chip *chip = &mockup->chips[index];
        if (say(mockup, "read %s/%c/chip_name", mockup->device, 'A' + (int)index))
            return -1;
        if (sscanf(mockup->say.text, "gpiochip%u", &chip->number) != 1) {
            errno = ENODEV;
            return -1;
        }
        snprintf(chip->name, sizeof chip->name, "gpiochip%u", chip->number);
        snprintf(chip->path, sizeof chip->path, "/dev/gpiochip%u", chip->number);
    }
    return 0;
}

/* Takes the device away, as far as it was made. */
static int remove_device(struct gpio_mockup *mockup) {
    int result = 0;
    for (unsigned index = 0; index < mockup->count; index++) {
        for (unsigned offset = 0; offset < mockup->chips[index].lines; offset++)
            if (say(mockup, "rmdir %s/%c/line%u", mockup->device, 'A' + (int)index, offset))
                result = -1;
        if (say(mockup, "rmdir %s/%c", mockup->device, 'A' + (int)index))
            result = -1;
    }
    if (say(mockup, "rmdir %s", mockup->device))
        result = -1;
    mockup->count = 0;
    mockup->device[0] = 0;
    return result;
}

EXPORTED int gpio_mockup_probe(struct gpio_mockup *mockup, unsigned count, const unsigned *sizes, int flags) {
    if (mockup->device[0]) {
        errno = EBUSY;
        return -1;
    }
    if (count < 1 || count > MOST_CHIPS) {
        errno = EINVAL;
        return -1;
    }
    if (make_device(mockup))
        return -1;
    int result = 0;
    for (unsigned index = 0; index < count && result == 0; index++)
        result = make_chip(mockup, sizes[index], flags & MOCKUP_NAMED_LINES);
    if (result == 0)
        result = say(mockup, "write %s/live 1", mockup->device);
    if (result) {
        int error = errno;
        remove_device(mockup);
        errno = error;
        return -1;
    }
    return find_chips(mockup);
}

EXPORTED int gpio_mockup_remove(struct gpio_mockup *mockup) {
    if (!mockup->device[0]) {
        errno = ENODEV;
        return -1;
    }
    if (say(mockup, "write %s/live 0", mockup->device))
        return -1;
    return remove_device(mockup);
}

static struct chip *chip_at(struct gpio_mockup *mockup, unsigned index) {
    if (index < mockup->count)
        return &mockup->chips[index];
    errno = EINVAL;
    return NULL;
}

EXPORTED const char *gpio_mockup_chip_name(struct gpio_mockup *mockup, unsigned index) {
    struct chip *chip = chip_at(mockup, index);
    return chip ? chip->name : NULL;
}

EXPORTED const char *gpio_mockup_chip_path(struct gpio_mockup *mockup, unsigned index) {
    struct chip *chip = chip_at(mockup, index);
    return chip ? chip->path : NULL;
}

EXPORTED int gpio_mockup_chip_num(struct gpio_mockup *mockup, unsigned index) {
    struct chip *chip = chip_at(mockup, index);
    return chip ? (int)chip->number : -1;
}

EXPORTED int gpio_mockup_get_value(struct gpio_mockup *mockup, unsigned index, unsigned offset) {
    struct chip *chip = chip_at(mockup, index);
    if (!chip || say(mockup, "read %s/sim_gpio%u/value", chip->name, offset))
        return -1;
    return mockup->say.text[0] == '1';
}

EXPORTED int gpio_mockup_set_pull(struct gpio_mockup *mockup, unsigned index, unsigned offset, int pull) {
    struct chip *chip = chip_at(mockup, index);
    return chip ? say(mockup, "write %s/sim_gpio%u/pull %s", chip->name, offset, pull ? "pull-up" : "pull-down") : -1;
}
