/* Events and changes: when they are there to be read, and by all ways to wait. */
#include <errno.h>
#include <fcntl.h>
#include <poll.h>
#include <stdlib.h>
#include <string.h>
#include <sys/epoll.h>
#include <sys/ioctl.h>
#include <sys/select.h>
#include <sys/uio.h>
#include <time.h>
#include <unistd.h>

#include "check.h"

static void test_poll(void) {
    struct gpio_v2_line_event events[2];
    int held = request_edges(1);
    test("poll is ready while an event waits, and no longer");
    CHECK(polled(held, 0) == 0);
    CHECK(pull(1, true) && pull(1, false));
    CHECK(polled(held, WAIT_MOST) == POLLIN);
    CHECK(read(held, events, sizeof *events) == sizeof *events && events[0].id == GPIO_V2_LINE_EVENT_RISING_EDGE);
    CHECK(polled(held, 0) == POLLIN);
    CHECK(read(held, events, sizeof events) == sizeof *events && events[0].id == GPIO_V2_LINE_EVENT_FALLING_EDGE);
    CHECK(events[0].seqno == 2 && events[0].line_seqno == 2 && events[0].offset == 1);
    CHECK(polled(held, 0) == 0);
    close(held);
}

static void test_timestamps(void) {
    struct gpio_v2_line_event event;
    struct timespec before, after;
    int held = request_edges(1);
    test("timestamps are those of the system's clock");
    clock_gettime(CLOCK_MONOTONIC, &before);
    CHECK(pull(1, true) && read(held, &event, sizeof event) == sizeof event);
    clock_gettime(CLOCK_MONOTONIC, &after);
    uint64_t first = (uint64_t)before.tv_sec * 1000000000u + (uint64_t)before.tv_nsec;
    uint64_t last = (uint64_t)after.tv_sec * 1000000000u + (uint64_t)after.tv_nsec;
    CHECK(event.timestamp_ns >= first && event.timestamp_ns <= last);
    CHECK(pull(1, false));
    close(held);
}

static void test_nonblocking(void) {
    struct gpio_v2_line_event event;
    int held = request_edges(1);
    test("a read that finds nothing doesn't wait where it may not");
    CHECK(fcntl(held, F_SETFL, O_NONBLOCK) == 0);
    CHECK_ERROR(read(held, &event, sizeof event), EAGAIN);
    CHECK_ERROR(read(held, &event, sizeof event - 1), EINVAL);
    close(held);
}

static void test_bad_memory(void) {
    void *volatile nowhere = (void *)16;
    int held = request_edges(1);
    test("a read into memory that isn't there is refused, and the next is answered");
    CHECK(pull(1, true) && pull(1, false));
    CHECK_ERROR(read(held, nowhere, sizeof(struct gpio_v2_line_event)), EFAULT);
    CHECK(values(held, 1) == 0);
    close(held);
}

static int pull_later(int line) {
    pause_for(50);
    return !pull((unsigned)line, true);
}

static void test_blocking(void) {
    struct gpio_v2_line_event event;
    int held = request_edges(1);
    test("a read waits for an event");
    pid_t child = run_child(pull_later, 1);
    CHECK(read(held, &event, sizeof event) == sizeof event && event.id == GPIO_V2_LINE_EVENT_RISING_EDGE);
    CHECK(end_of(child) == 0 && pull(1, false));
    close(held);
}

static void test_readv(void) {
    struct gpio_v2_line_event first, second;
    struct iovec parts[] = {{&first, sizeof first}, {&second, sizeof second}};
    int held = request_edges(1);
    test("readv gives out events over its parts");
    CHECK(pull(1, true) && pull(1, false) && readv(held, parts, 2) == 2 * sizeof first);
    CHECK(first.id == GPIO_V2_LINE_EVENT_RISING_EDGE && second.id == GPIO_V2_LINE_EVENT_FALLING_EDGE);
    close(held);
}

static void test_select(void) {
    struct gpio_v2_line_event event;
    struct timeval none = {0, 0};
    fd_set files;
    int held = request_edges(1);
    test("select is ready while an event waits");
    FD_ZERO(&files);
    FD_SET(held, &files);
    CHECK(select(held + 1, &files, NULL, NULL, &none) == 0);
    CHECK(pull(1, true));
    FD_SET(held, &files);
    CHECK(select(held + 1, &files, NULL, NULL, NULL) == 1 && FD_ISSET(held, &files));
    CHECK(read(held, &event, sizeof event) == sizeof event && pull(1, false));
    close(held);
}

static int epoll_with(int file, uint32_t events) {
    struct epoll_event event = {.events = events};
    int waiter = epoll_create1(EPOLL_CLOEXEC);
    CHECK(waiter >= 0 && epoll_ctl(waiter, EPOLL_CTL_ADD, file, &event) == 0);
    return waiter;
}

static void test_epoll(void) {
    struct gpio_v2_line_event events[4];
    struct epoll_event shown;
    int held = request_edges(1), waiter = epoll_with(held, EPOLLIN);
    test("epoll is ready while an event waits");
    CHECK(epoll_wait(waiter, &shown, 1, 0) == 0 && pull(1, true));
    CHECK(epoll_wait(waiter, &shown, 1, WAIT_MOST) == 1 && epoll_wait(waiter, &shown, 1, 0) == 1);
    CHECK(read(held, events, sizeof events) == sizeof *events && epoll_wait(waiter, &shown, 1, 0) == 0);
    close(waiter);
    waiter = epoll_with(held, EPOLLIN | EPOLLET);
    test("edge-triggered epoll shows each event, also where one waits already");
    CHECK(pull(1, false) && epoll_wait(waiter, &shown, 1, WAIT_MOST) == 1 && epoll_wait(waiter, &shown, 1, 0) == 0);
    CHECK(pull(1, true) && epoll_wait(waiter, &shown, 1, WAIT_MOST) == 1);
    CHECK(read(held, events, sizeof events) == 2 * sizeof *events && epoll_wait(waiter, &shown, 1, 0) == 0);
    CHECK(pull(1, false) && epoll_wait(waiter, &shown, 1, WAIT_MOST) == 1);
    close(waiter);
    close(held);
}

/* Microseconds of a debounce period, and how often it is tried to look before it has passed. */
#define PERIOD 400000
#define MOST_LOOKS 100

static uint64_t microseconds_now(void) {
    struct timespec now;
    clock_gettime(CLOCK_MONOTONIC, &now);
    return (uint64_t)now.tv_sec * 1000000 + (uint64_t)now.tv_nsec / 1000;
}

/* Pulls the debounced line, and looks at it. False where the period had passed meanwhile, as on a busy machine. */
static bool is_seen_in_time(int held, bool up) {
    uint64_t begins = microseconds_now();
    bool is_as_before = pull(1, up) && values(held, 1) == !up && polled(held, 0) == 0;
    bool is_in_time = microseconds_now() - begins < PERIOD;
    CHECK(!is_in_time || is_as_before);
    return is_in_time;
}

static void test_debounce(void) {
    struct gpio_v2_line_event event;
    int held = request_debounced(1, PERIOD), looks = 0;
    bool is_in_time = false, up = false;
    test("a debounce period passes by itself");
    CHECK(held >= 0);
    while ((!is_in_time || up) && looks++ < MOST_LOOKS) {
        up = !up;
        is_in_time = is_seen_in_time(held, up) || is_in_time;
        CHECK(polled(held, WAIT_MOST) == POLLIN && values(held, 1) == up);
        CHECK(read(held, &event, sizeof event) == sizeof event);
        CHECK(event.id == (up ? GPIO_V2_LINE_EVENT_RISING_EDGE : GPIO_V2_LINE_EVENT_FALLING_EDGE));
    }
    CHECK(is_in_time);
    close(held);
}

static void test_watch(void) {
    struct gpio_v2_line_info_changed change[2];
    struct gpio_v2_line_info info = {.offset = 2};
    int chip = open_chip(0);
    test("changes of a watched line are read with names and consumers");
    CHECK(ioctl(chip, GPIO_V2_GET_LINEINFO_WATCH_IOCTL, &info) == 0 && polled(chip, 0) == 0);
    int held = request(2, GPIO_V2_LINE_FLAG_OUTPUT);
    CHECK(polled(chip, WAIT_MOST) == POLLIN && read(chip, change, sizeof *change) == sizeof *change);
    CHECK(change[0].event_type == GPIO_V2_LINE_CHANGED_REQUESTED && strcmp(change[0].info.consumer, "test") == 0);
    close(held);
    CHECK(polled(chip, WAIT_MOST) == POLLIN && read(chip, change, sizeof change) == sizeof *change);
    CHECK(change[0].event_type == GPIO_V2_LINE_CHANGED_RELEASED && polled(chip, 0) == 0);
    CHECK(ioctl(chip, GPIO_GET_LINEINFO_UNWATCH_IOCTL, &info.offset) == 0);
    held = request(2, GPIO_V2_LINE_FLAG_OUTPUT);
    CHECK(polled(chip, 20) == 0);
    close(held);
    close(chip);
}

static void test_many(void) {
    struct gpio_v2_line_event *events = calloc(1024, sizeof *events);
    int held = request_edges(1);
    test("many events are read in order, and the oldest are lost first");
    for (int i = 0; i < 40; i++)
        CHECK(pull(1, i % 2 == 0));
    ssize_t got = read(held, events, 1024 * sizeof *events);
    CHECK(got == 16 * (ssize_t)sizeof *events && events[0].seqno == 25 && events[15].seqno == 40);
    free(events);
    close(held);
}

void test_events(void) {
    test_poll();
    test_timestamps();
    test_nonblocking();
    test_bad_memory();
    test_blocking();
    test_readv();
    test_select();
    test_epoll();
    test_debounce();
    test_watch();
    test_many();
}
