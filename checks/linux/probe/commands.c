#include "commands.h"

#include <linux/gpio.h>
#include <string.h>

static const struct {
    int version;
    const char *name;
    unsigned long command;
} commands[] = {
    {2, "GET_CHIPINFO", GPIO_GET_CHIPINFO_IOCTL},
    {2, "GET_LINEINFO", GPIO_V2_GET_LINEINFO_IOCTL},
    {2, "WATCH", GPIO_V2_GET_LINEINFO_WATCH_IOCTL},
    {2, "UNWATCH", GPIO_GET_LINEINFO_UNWATCH_IOCTL},
    {2, "GET_LINE", GPIO_V2_GET_LINE_IOCTL},
    {2, "SET_CONFIG", GPIO_V2_LINE_SET_CONFIG_IOCTL},
    {2, "GET_VALUES", GPIO_V2_LINE_GET_VALUES_IOCTL},
    {2, "SET_VALUES", GPIO_V2_LINE_SET_VALUES_IOCTL},
    {1, "CHIPINFO", GPIO_GET_CHIPINFO_IOCTL},
    {1, "LINEINFO", GPIO_GET_LINEINFO_IOCTL},
    {1, "WATCH", GPIO_GET_LINEINFO_WATCH_IOCTL},
    {1, "UNWATCH", GPIO_GET_LINEINFO_UNWATCH_IOCTL},
    {1, "LINEHANDLE", GPIO_GET_LINEHANDLE_IOCTL},
    {1, "LINEEVENT", GPIO_GET_LINEEVENT_IOCTL},
    {1, "GET_VALUES", GPIOHANDLE_GET_LINE_VALUES_IOCTL},
    {1, "SET_VALUES", GPIOHANDLE_SET_LINE_VALUES_IOCTL},
    {1, "SET_CONFIG", GPIOHANDLE_SET_CONFIG_IOCTL},
};

bool commands_named(int version, const char *name, unsigned long *command) {
    for (size_t i = 0; i < sizeof commands / sizeof *commands; i++)
        if (commands[i].version == version && strcmp(commands[i].name, name) == 0) {
            *command = commands[i].command;
            return true;
        }
    return false;
}

bool commands_make(unsigned long command, enum kind *kind, size_t *place) {
    switch (command) {
    case GPIO_V2_GET_LINE_IOCTL:
        *kind = OF_LINES;
        *place = offsetof(struct gpio_v2_line_request, fd);
        return true;
    case GPIO_GET_LINEHANDLE_IOCTL:
        *kind = OF_HANDLE;
        *place = offsetof(struct gpiohandle_request, fd);
        return true;
    case GPIO_GET_LINEEVENT_IOCTL:
        *kind = OF_EVENT;
        *place = offsetof(struct gpioevent_request, fd);
        return true;
    default:
        return false;
    }
}

int commands_watch(unsigned long command) {
    if (command == GPIO_GET_LINEINFO_WATCH_IOCTL)
        return 1;
    return command == GPIO_V2_GET_LINEINFO_WATCH_IOCTL ? 2 : 0;
}

void commands_item(enum kind kind, int version, size_t *length, size_t *place) {
    *place = 0;
    if (kind == OF_LINES) {
        *length = sizeof(struct gpio_v2_line_event);
    } else if (kind == OF_EVENT) {
        *length = sizeof(struct gpioevent_data);
    } else if (version == 1) {
        *length = sizeof(struct gpioline_info_changed);
        *place = offsetof(struct gpioline_info_changed, timestamp);
    } else {
        *length = sizeof(struct gpio_v2_line_info_changed);
        *place = offsetof(struct gpio_v2_line_info_changed, timestamp_ns);
    }
}
