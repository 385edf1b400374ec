/* Requests to wait, and what they are answered. */
#include <errno.h>
#include <stdio.h>
#include <stdlib.h>
#include <string.h>
#include <sys/ioctl.h>
#include <unistd.h>

#include "check.h"
#include "raw.h"

/* Clients that wait at a time, in one test. */
#define MANY_CLIENTS 100

/* Sends a statement over a connection, without taking its answer. */
static bool send_over(int connection, const char *text) {
    struct question question = {.op = WIRE_SAY, .length = (uint32_t)strlen(text)};
    return raw_send(connection, &question, text, strlen(text));
}

/* Sends a request to wait, over a connection of its own. */
static int begin(const char *text) {
    int connection = raw_connect();
    CHECK(connection >= 0 && send_over(connection, text));
    return connection;
}

/* Whether the next answer is this error with a text that begins so. */
static bool answers(int connection, int error, const char *text) {
    static struct raw raw;
    raw_receive(connection, &raw);
    if (raw.length < (long)sizeof raw.head || raw.head.error != error)
        return false;
    return raw.head.length >= strlen(text) && memcmp(raw.data, text, strlen(text)) == 0 &&
           (error || raw.head.length == strlen(text));
}

/* The same of the last answer over a connection, which is closed. */
static bool ends(int connection, int error, const char *text) {
    bool same = answers(connection, error, text);
    close(connection);
    return same;
}

/* Whether a connection that waits isn't answered by a statement that is said now. */
static bool goes_on(int connection) {
    return say("read gpiochip0/sim_gpio0/value") && polled(connection, 0) == 0;
}

static int hold(uint32_t line, uint64_t flags, const char *consumer) {
    int chip = open_chip(0);
    int lines = request_lines(chip, &line, 1, flags, consumer);
    close(chip);
    return lines;
}

static void test_holders(void) {
    test("a wait ends when a line is held, and says by whom");
    int any = begin("wait held gpiochip0 5"), other = begin("wait held 0 5 by my\\x20other");
    CHECK(goes_on(any) && goes_on(other));
    int lines = hold(5, GPIO_V2_LINE_FLAG_INPUT, "test");
    CHECK(ends(any, 0, "test\n") && goes_on(other));
    int released = begin("wait released /dev/gpiochip0 5");
    CHECK(goes_on(released));
    close(lines);
    test("a wait ends when a line is released, and one for a consumer when that one holds it");
    CHECK(ends(released, 0, "") && goes_on(other));
    lines = hold(5, GPIO_V2_LINE_FLAG_OUTPUT, "my other");
    CHECK(ends(other, 0, "my\\x20other\n"));
    CHECK(ends(begin("wait held 0 5"), 0, "my\\x20other\n") && ends(begin("wait released 0 6"), 0, ""));
    close(lines);
    lines = hold(5, GPIO_V2_LINE_FLAG_OUTPUT, "");
    CHECK(ends(begin("wait held 0 5"), 0, "?\n"));
    close(lines);
}

static void test_levels(void) {
    test("a level that lasts for one statement isn't missed");
    CHECK(pull(5, false));
    int high = begin("wait level 0 5 1");
    CHECK(goes_on(high) && pull(5, true) && pull(5, false) && ends(high, 0, ""));
    test("a level that a program sets is waited for");
    int lines = hold(5, GPIO_V2_LINE_FLAG_OUTPUT, "test");
    high = begin("wait level 0 5 1 within 60s");
    CHECK(goes_on(high) && set_values(lines, 1, 1) == 0 && ends(high, 0, ""));
    CHECK(ends(begin("wait level 0 5 1"), 0, ""));
    close(lines);
}

/* What a count is by now. */
static unsigned long count_now(const char *text) {
    return say("%s", text) ? strtoul(said(), NULL, 10) : 0;
}

static void test_reads(void) {
    struct gpio_v2_line_event event;
    struct gpioevent_request old = {
        .lineoffset = 6, .handleflags = GPIOHANDLE_REQUEST_INPUT, .eventflags = GPIOEVENT_REQUEST_BOTH_EDGES};
    struct gpioevent_data old_event;
    char text[64], told[32];
    unsigned long before = count_now("wait read 0 6 0");
    int lines = request_edges(6), chip = open_chip(0);
    test("a wait ends when so many events of a line were read");
    snprintf(text, sizeof text, "wait read 0 6 %lu", before + 2);
    snprintf(told, sizeof told, "%lu\n", before + 2);
    int waits = begin(text);
    CHECK(pull(6, true) && pull(6, false) && goes_on(waits));
    CHECK(read(lines, &event, sizeof event) == sizeof event && goes_on(waits));
    CHECK(read(lines, &event, sizeof event) == sizeof event && ends(waits, 0, told));
    close(lines);
    test("events of version 1 count too");
    snprintf(text, sizeof text, "wait read 0 6 %lu", before + 3);
    snprintf(told, sizeof told, "%lu\n", before + 3);
    waits = begin(text);
    CHECK(ioctl(chip, GPIO_GET_LINEEVENT_IOCTL, &old) == 0 && pull(6, true) && goes_on(waits));
    CHECK(read(old.fd, &old_event, sizeof old_event) == sizeof old_event && ends(waits, 0, told));
    CHECK(count_now("wait read 0 7 0") == 0);
    close(old.fd);
    close(chip);
}

static void test_openings(void) {
    char text[64], told[32];
    unsigned long before = count_now("wait opened 1 0");
    test("a wait ends when a chip was opened so often");
    snprintf(text, sizeof text, "wait opened 1 %lu", before + 1);
    snprintf(told, sizeof told, "%lu\n", before + 1);
    int waits = begin(text);
    CHECK(goes_on(waits));
    close(open_chip(0));
    CHECK(goes_on(waits));
    close(open_chip(1));
    CHECK(ends(waits, 0, told) && ends(begin("wait opened 1"), 0, told));
}

static void test_limits(void) {
    test("a wait whose time is over says what stands in its way");
    CHECK(ends(begin("wait held 0 7 within 20ms"), ETIMEDOUT,
        "ETIMEDOUT: after 20 ms line 7 of gpiochip0 is held by nobody\n"));
    CHECK(ends(
        begin("wait level 0 7 1 within 0s"), ETIMEDOUT, "ETIMEDOUT: after 0 ms line 7 of gpiochip0 has level 0\n"));
    CHECK(ends(begin("wait read 0 7 9 within 0ms"), ETIMEDOUT,
        "ETIMEDOUT: after 0 ms 0 events of line 7 of gpiochip0 were read\n"));
    CHECK(ends(begin("wait opened 60 within 1ms"), ETIMEDOUT, "ETIMEDOUT: after 1 ms gpiochip60 isn't there\n"));
    CHECK(ends(begin("wait held 60 1 within 1ms"), ETIMEDOUT, "ETIMEDOUT: after 1 ms gpiochip60 isn't there\n"));
    int lines = hold(7, GPIO_V2_LINE_FLAG_INPUT, "test");
    CHECK(ends(begin("wait released 0 7 within 1ms"), ETIMEDOUT,
        "ETIMEDOUT: after 1 ms line 7 of gpiochip0 is held by test\n"));
    close(lines);
    test("a line that the chip hasn't is waited for by nobody");
    CHECK(ends(begin("wait held gpiochip0 8"), EINVAL, "EINVAL: gpiochip0 has no line 8\n"));
}

static void test_wrong(void) {
    static const char *const wrong[] = {"wait", "wait held", "wait held 0", "wait held 0 x", "wait held 64 0",
        "wait held chip0 1", "wait held /dev/0 1", "wait held gpiochip 1", "wait held 0 512", "wait held 0 1 by",
        "wait held 0 1 within", "wait held 0 1 within 5", "wait held 0 1 within 5m", "wait held 0 1 within ms",
        "wait held 0 1 within 1s 2", "wait held 0 1 within 86401s", "wait held 0 1 within 99999999999999999999ms",
        "wait held 0 1 more", "wait released 0 1 by x", "wait level 0 1", "wait level 0 1 2", "wait read 0 1 x",
        "wait read 0 1 99999999999999999999", "wait opened", "wait opened 0 1 2", "wait gone 0 1", "wait changed 0",
        "wait changed by x", "wait changed within", "wait held 0 1\nwithin 1s"};
    test("what is no request to wait is told so");
    for (size_t i = 0; i < sizeof wrong / sizeof *wrong; i++)
        CHECK(!say("%s", wrong[i]) && said_none() && strncmp(said(), "refused: ", 9) == 0);
}

static void test_clients(void) {
    int many[MANY_CLIENTS];
    test("what is asked behind a wait is answered behind it");
    int waits = begin("wait held 0 5 within 60s");
    CHECK(send_over(waits, "read gpiochip0/sim_gpio0/pull") && goes_on(waits));
    int lines = hold(5, GPIO_V2_LINE_FLAG_INPUT, "test");
    CHECK(answers(waits, 0, "test\n") && ends(waits, 0, "pull-down\n"));
    test("many wait, and go without an answer");
    for (int i = 0; i < MANY_CLIENTS; i++)
        many[i] = begin("wait released 0 5 within 60s");
    for (int i = 1; i < MANY_CLIENTS; i++)
        close(many[i]);
    CHECK(goes_on(many[0]));
    close(lines);
    CHECK(ends(many[0], 0, ""));
}

void test_waits(void) {
    test_holders();
    test_levels();
    test_reads();
    test_openings();
    test_limits();
    test_wrong();
    test_clients();
}

/* (it uses up the number of a chip) */
void test_waits_for_chips(void) {
    char text[64];
    unsigned chip = 0;
    test("a chip that goes ends the waits for it");
    CHECK(say("probe waited 2") && say("gpiodetect"));
    const char *row = strstr(said(), " [waited]");
    while (row && row > said() && row[-1] != '\n')
        row--;
    CHECK(row && sscanf(row, "gpiochip%u", &chip) == 1);
    snprintf(text, sizeof text, "wait level %u 1 1 within 60s", chip);
    int level = begin(text);
    snprintf(text, sizeof text, "wait opened %u within 60s", chip);
    int opened = begin(text);
    snprintf(text, sizeof text, "gpiochip%u is gone\n", chip);
    CHECK(goes_on(level) && goes_on(opened) && say("unplug %u", chip));
    CHECK(ends(level, ENODEV, "ENODEV: ") && ends(opened, ENODEV, "ENODEV: "));
    CHECK(!say("wait held %u 0", chip) && strstr(said(), text));
    CHECK(say("wait released %u 0", chip));
}
