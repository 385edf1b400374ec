/* Requests: values, configurations, and when lines are free again. */
#include <errno.h>
#include <string.h>
#include <sys/ioctl.h>
#include <unistd.h>

#include "check.h"

static void test_output(void) {
    const uint32_t lines[] = {1, 2};
    int chip = open_chip(0);
    int held = request_lines(chip, lines, 2, GPIO_V2_LINE_FLAG_OUTPUT, "two lines");
    test("outputs are set and read back, and the outside world sees them");
    CHECK(held >= 0 && set_values(held, 2, 3) == 0 && values(held, 3) == 2);
    CHECK(say("read gpiochip0/sim_gpio2/value") && strcmp(said(), "1\n") == 0);
    struct gpio_v2_line_info info = {.offset = 2};
    CHECK(ioctl(chip, GPIO_V2_GET_LINEINFO_IOCTL, &info) == 0 && strcmp(info.consumer, "two lines") == 0);
    CHECK_ERROR(request_lines(chip, lines, 1, GPIO_V2_LINE_FLAG_INPUT, ""), EBUSY);
    close(held);
    close(chip);
}

static void test_input(void) {
    int held = request(3, GPIO_V2_LINE_FLAG_INPUT);
    test("an input has the level to which it is pulled");
    CHECK(values(held, 1) == 0);
    CHECK(pull(3, true) && values(held, 1) == 1);
    CHECK(pull(3, false) && values(held, 1) == 0);
    CHECK_ERROR(set_values(held, 1, 1), EPERM);
    CHECK_ERROR(values(held, 0), EINVAL);
    close(held);
}

static void test_copies(void) {
    int held = request(1, GPIO_V2_LINE_FLAG_OUTPUT);
    int copy = dup(held);
    test("lines are free once the last copy of the file is closed, and at once");
    CHECK(copy >= 0 && close(held) == 0 && set_values(copy, 1, 1) == 0);
    CHECK_ERROR(request(1, GPIO_V2_LINE_FLAG_INPUT), EBUSY);
    close(copy);
    for (int turn = 0; turn < 200; turn++) {
        held = request(1, GPIO_V2_LINE_FLAG_INPUT);
        if (held < 0)
            break;
        close(held);
    }
    CHECK(held >= 0);
}

static void test_config(void) {
    struct gpio_v2_line_config config = {.flags = GPIO_V2_LINE_FLAG_INPUT | GPIO_V2_LINE_FLAG_ACTIVE_LOW};
    int held = request(1, GPIO_V2_LINE_FLAG_INPUT);
    test("a configuration is changed while lines are held");
    CHECK(values(held, 1) == 0 && ioctl(held, GPIO_V2_LINE_SET_CONFIG_IOCTL, &config) == 0 && values(held, 1) == 1);
    config.flags = 1ull << 40;
    CHECK_ERROR(ioctl(held, GPIO_V2_LINE_SET_CONFIG_IOCTL, &config), EINVAL);
    close(held);
}

static void test_fault(void) {
    int held = request(1, GPIO_V2_LINE_FLAG_OUTPUT);
    test("a driver that fails is answered EIO once");
    CHECK(say("fault 1"));
    CHECK_ERROR(set_values(held, 1, 1), EIO);
    CHECK(set_values(held, 1, 1) == 0);
    close(held);
}

static void test_hostile_bytes(void) {
    struct gpio_v2_line_request asked;
    int chip = open_chip(0);
    test("bytes that would be text elsewhere are bytes");
    memset(&asked, 0, sizeof asked);
    asked.num_lines = 1;
    asked.offsets[0] = 5;
    asked.config.flags = GPIO_V2_LINE_FLAG_INPUT;
    memcpy(asked.consumer, "\nunplug gpiochip0\n*\xff", 20);
    CHECK(ioctl(chip, GPIO_V2_GET_LINE_IOCTL, &asked) == 0);
    struct gpio_v2_line_info info = {.offset = 5};
    CHECK(ioctl(chip, GPIO_V2_GET_LINEINFO_IOCTL, &info) == 0 && memcmp(info.consumer, asked.consumer, 32) == 0);
    memset(&asked.padding, 0xff, sizeof asked.padding);
    CHECK_ERROR(ioctl(chip, GPIO_V2_GET_LINE_IOCTL, &asked), EINVAL);
    close(asked.fd);
    close(chip);
}

static void test_scattered_bytes(void) {
    struct gpio_v2_line_request asked;
    unsigned char *bytes = (unsigned char *)&asked;
    int chip = open_chip(0);
    test("bytes that nobody looks at may be any");
    memset(&asked, 0, sizeof asked);
    for (size_t i = 4; i < sizeof asked.offsets; i += 9)
        bytes[i] = 1;
    for (size_t i = 0; i < sizeof asked.config.attrs; i += 9)
        ((unsigned char *)asked.config.attrs)[i] = 1;
    asked.offsets[0] = 5;
    asked.num_lines = 1;
    asked.config.flags = GPIO_V2_LINE_FLAG_INPUT;
    CHECK(ioctl(chip, GPIO_V2_GET_LINE_IOCTL, &asked) == 0 && values(asked.fd, 1) == 0);
    close(asked.fd);
    close(chip);
}

static void test_statements(void) {
    test("a statement that may not be said is refused, and says nothing else");
    CHECK(!say("clock 1 1") && strncmp(said(), "refused: the clock", 18) == 0);
    CHECK(!say("probe a 1\nprobe b 1") && strncmp(said(), "refused: a statement is one line", 32) == 0);
    CHECK(!say("close chip.1") && strncmp(said(), "refused: this file", 18) == 0);
    CHECK(!say("data x 1") && !say("setup") && !say("nonsense") && !say("probe x 0"));
    CHECK(!say("unplug gpiochip9") && strcmp(said(), "ENOENT\n") == 0);
    CHECK(say("due") && say("# a comment") && say(" "));
}

void test_values(void) {
    test_output();
    test_input();
    test_copies();
    test_config();
    test_fault();
    test_hostile_bytes();
    test_scattered_bytes();
    test_statements();
}
