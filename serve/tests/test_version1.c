/* Version 1 of linux/gpio.h. */
#include <errno.h>
#include <fcntl.h>
#include <poll.h>
#include <string.h>
#include <sys/ioctl.h>
#include <unistd.h>

#include "check.h"

static void test_handle(void) {
    struct gpiohandle_request asked = {.lines = 2, .lineoffsets = {1, 2}, .flags = GPIOHANDLE_REQUEST_OUTPUT};
    struct gpiohandle_data data = {.values = {0, 1}};
    int chip = open_chip(0);
    test("version 1: a handle sets and gets values");
    strcpy(asked.consumer_label, "old");
    CHECK(ioctl(chip, GPIO_GET_LINEHANDLE_IOCTL, &asked) == 0);
    CHECK(ioctl(asked.fd, GPIOHANDLE_SET_LINE_VALUES_IOCTL, &data) == 0);
    CHECK(say("read gpiochip0/sim_gpio2/value") && strcmp(said(), "1\n") == 0);
    memset(&data, 9, sizeof data);
    CHECK(ioctl(asked.fd, GPIOHANDLE_GET_LINE_VALUES_IOCTL, &data) == 0 && data.values[0] == 0 && data.values[1] == 1);
    struct gpioline_info info = {.line_offset = 2};
    CHECK(ioctl(chip, GPIO_GET_LINEINFO_IOCTL, &info) == 0 && strcmp(info.consumer, "old") == 0);
    CHECK(info.flags == (GPIOLINE_FLAG_KERNEL | GPIOLINE_FLAG_IS_OUT));
    CHECK_ERROR(ioctl(chip, GPIO_GET_LINEHANDLE_IOCTL, &asked), EBUSY);
    CHECK_ERROR(read(asked.fd, &data, sizeof data), EINVAL);
    close(asked.fd);
    close(chip);
}

static void test_event(void) {
    struct gpioevent_request asked = {
        .lineoffset = 4, .handleflags = GPIOHANDLE_REQUEST_INPUT, .eventflags = GPIOEVENT_REQUEST_BOTH_EDGES};
    struct gpioevent_data events[3];
    int chip = open_chip(0);
    test("version 1: events are waited for and read");
    CHECK(ioctl(chip, GPIO_GET_LINEEVENT_IOCTL, &asked) == 0);
    CHECK(polled(asked.fd, 0) == 0 && pull(4, true) && pull(4, false) && polled(asked.fd, WAIT_MOST) == 1);
    CHECK(read(asked.fd, events, sizeof events) == 2 * sizeof *events);
    CHECK(events[0].id == GPIOEVENT_EVENT_RISING_EDGE && events[1].id == GPIOEVENT_EVENT_FALLING_EDGE);
    CHECK(events[0].timestamp > 0 && events[0].timestamp <= events[1].timestamp && polled(asked.fd, 0) == 0);
    close(asked.fd);
    close(chip);
}

static void test_watch(void) {
    struct gpioline_info info = {.line_offset = 2}, none = {.line_offset = 8};
    struct gpio_v2_line_info other = {.offset = 3}, no_line = {.offset = 8};
    int chip = open_chip(0), newer = open_chip(0);
    test("version 1: a watch shows the line, and a file has the version of its first one");
    int held = request(2, GPIO_V2_LINE_FLAG_OUTPUT | GPIO_V2_LINE_FLAG_ACTIVE_LOW);
    CHECK_ERROR(ioctl(chip, GPIO_GET_LINEINFO_WATCH_IOCTL, &none), EINVAL);
    CHECK(ioctl(chip, GPIO_GET_LINEINFO_WATCH_IOCTL, &info) == 0 && strcmp(info.consumer, "test") == 0);
    CHECK(info.flags == (GPIOLINE_FLAG_KERNEL | GPIOLINE_FLAG_IS_OUT | GPIOLINE_FLAG_ACTIVE_LOW));
    CHECK_ERROR(ioctl(chip, GPIO_GET_LINEINFO_WATCH_IOCTL, &info), EBUSY);
    CHECK_ERROR(ioctl(chip, GPIO_V2_GET_LINEINFO_WATCH_IOCTL, &other), EPERM);
    CHECK_ERROR(ioctl(chip, GPIO_V2_GET_LINEINFO_WATCH_IOCTL, &no_line), EINVAL);
    CHECK(ioctl(newer, GPIO_V2_GET_LINEINFO_WATCH_IOCTL, &other) == 0);
    CHECK_ERROR(ioctl(newer, GPIO_GET_LINEINFO_WATCH_IOCTL, &info), EPERM);
    CHECK_ERROR(ioctl(newer, GPIO_GET_LINEINFO_WATCH_IOCTL, &none), EINVAL);
    close(held);
    close(newer);
    close(chip);
}

/* So many changes of line 2: it is requested and released in turn. */
static void change(int times) {
    static int held = -1;
    for (int i = 0; i < times; i++) {
        if (held < 0) {
            held = request(2, GPIO_V2_LINE_FLAG_INPUT | GPIO_V2_LINE_FLAG_BIAS_PULL_DOWN);
        } else {
            close(held);
            held = -1;
        }
    }
}

static void test_changes(void) {
    const ssize_t one = sizeof(struct gpioline_info_changed), newer = sizeof(struct gpio_v2_line_info_changed);
    struct gpioline_info_changed changes[8];
    struct gpioline_info info = {.line_offset = 2};
    int chip = open_chip(0);
    test("version 1: changes are waited for and read, a further one while there is room for one of version 2");
    CHECK(fcntl(chip, F_SETFL, O_NONBLOCK) == 0); /* (so that no read waits for ever where nothing comes) */
    CHECK(ioctl(chip, GPIO_GET_LINEINFO_WATCH_IOCTL, &info) == 0 && polled(chip, 0) == 0);
    change(2);
    CHECK(polled(chip, WAIT_MOST) == POLLIN);
    CHECK_ERROR(read(chip, changes, (size_t)one - 1), EINVAL);
    CHECK(read(chip, changes, (size_t)newer) == one && polled(chip, 0) == POLLIN);
    CHECK(changes[0].event_type == GPIOLINE_CHANGED_REQUESTED && changes[0].timestamp > 0);
    CHECK(changes[0].info.line_offset == 2 && strcmp(changes[0].info.consumer, "test") == 0);
    CHECK(changes[0].info.flags == (GPIOLINE_FLAG_KERNEL | GPIOLINE_FLAG_BIAS_PULL_DOWN));
    CHECK(read(chip, changes, (size_t)one) == one && polled(chip, 0) == 0);
    CHECK(changes[0].event_type == GPIOLINE_CHANGED_RELEASED && changes[0].info.flags == 0);
    change(4);
    CHECK(read(chip, changes, (size_t)(one + newer)) == 2 * one && read(chip, changes, sizeof changes) == 2 * one);
    CHECK(changes[1].event_type == GPIOLINE_CHANGED_RELEASED && polled(chip, 0) == 0);
    CHECK(ioctl(chip, GPIO_GET_LINEINFO_UNWATCH_IOCTL, &info.line_offset) == 0);
    change(2);
    CHECK(polled(chip, 0) == 0);
    close(chip);
}

void test_version1(void) {
    test_handle();
    test_event();
    test_watch();
    test_changes();
}
