/* A chip that goes while its files are open, and one that comes. */
#include <dirent.h>
#include <errno.h>
#include <fcntl.h>
#include <poll.h>
#include <string.h>
#include <sys/epoll.h>
#include <sys/ioctl.h>
#include <sys/select.h>
#include <sys/stat.h>
#include <unistd.h>

#include "check.h"

static void test_arrival(void) {
    struct gpiochip_info info;
    test("a chip that comes later has a name at once");
    CHECK_ERROR(open_chip(2), ENOENT);
    CHECK(say("probe late 3"));
    int chip = open_chip(2);
    CHECK(chip >= 0 && ioctl(chip, GPIO_GET_CHIPINFO_IOCTL, &info) == 0 && info.lines == 3);
    CHECK(access("/dev/gpiochip2", F_OK) == 0);
    close(chip);
}

static int unplug_later(int chip) {
    pause_for(50);
    return !say("unplug gpiochip%d", chip);
}

static void check_gone(int file) {
    struct gpio_v2_line_event event;
    CHECK(polled(file, 0) == shown_gone());
    CHECK_ERROR(read(file, &event, sizeof event), ENODEV);
    CHECK_ERROR(values(file, 1), ENODEV);
}

static void test_unplug(void) {
    const uint32_t line = 1;
    struct gpio_v2_line_event event;
    struct stat status;
    int chip = open_chip(2), waiter = epoll_create1(0);
    int edges = request_lines(chip, &line, 1, GPIO_V2_LINE_FLAG_INPUT | GPIO_V2_LINE_FLAG_EDGE_RISING, "edges");
    struct epoll_event shown = {.events = EPOLLIN};
    test("the files of a chip that is gone say so");
    CHECK(edges >= 0 && epoll_ctl(waiter, EPOLL_CTL_ADD, edges, &shown) == 0);
    CHECK(say("write gpiochip2/sim_gpio1/pull pull-up") && polled(edges, WAIT_MOST) == POLLIN);
    CHECK(read(edges, &event, sizeof event) == sizeof event);
    pid_t child = run_child(unplug_later, 2);
    CHECK(ended_with_chip(read(edges, &event, sizeof event)));
    CHECK(end_of(child) == 0);
    check_gone(edges);
    check_gone(chip);
    CHECK(epoll_wait(waiter, &shown, 1, 0) == 1 && shown.events & EPOLLHUP);
    CHECK_ERROR(stat("/dev/gpiochip2", &status), ENOENT);
    CHECK_ERROR(open_chip(2), ENOENT);
    close(waiter);
    close(edges);
    close(chip);
}

static int wait_by_poll(int file) {
    return polled(file, WAIT_MOST) != shown_gone();
}

static int wait_by_select(int file) {
    struct timeval ten = {10, 0};
    fd_set files;
    FD_ZERO(&files);
    FD_SET(file, &files);
    return select(file + 1, &files, NULL, NULL, &ten) != 1;
}

static int wait_by_epoll(int file, uint32_t events) {
    struct epoll_event shown = {.events = events};
    int waiter = epoll_create1(0);
    return epoll_ctl(waiter, EPOLL_CTL_ADD, file, &shown) || epoll_wait(waiter, &shown, 1, WAIT_MOST) != 1 ||
           !(shown.events & EPOLLHUP);
}

static int wait_by_level(int file) {
    return wait_by_epoll(file, EPOLLIN);
}

static int wait_by_edge(int file) {
    return wait_by_epoll(file, EPOLLIN | EPOLLET);
}

static int wait_by_read(int file) {
    struct gpio_v2_line_event event;
    return !ended_with_chip(read(file, &event, sizeof event));
}

/* Whoever waits by whatever call has a copy of the request. */
static void test_held(void) {
    int (*const waits[])(int) = {wait_by_poll, wait_by_select, wait_by_level, wait_by_edge, wait_by_read};
    struct gpio_v2_line_config config = {.flags = GPIO_V2_LINE_FLAG_INPUT};
    const uint32_t line = 0;
    pid_t children[sizeof waits / sizeof *waits];
    bool woken = true;
    test("a request that is held over a removal ends every wait, and stays that of the old chip");
    CHECK(say("probe held 1"));
    int chip = open_chip(4);
    int edges = request_lines(chip, &line, 1, GPIO_V2_LINE_FLAG_INPUT | GPIO_V2_LINE_FLAG_EDGE_RISING, "held");
    for (size_t i = 0; i < sizeof waits / sizeof *waits; i++)
        children[i] = run_child(waits[i], edges);
    pause_for(50);
    CHECK(edges >= 0 && say("unplug gpiochip4") && say("probe held 1"));
    for (size_t i = 0; i < sizeof waits / sizeof *waits; i++)
        woken = end_of(children[i]) == 0 && woken;
    CHECK(woken);
    check_gone(edges);
    CHECK_ERROR(set_values(edges, 1, 1), ENODEV);
    CHECK_ERROR(ioctl(edges, GPIO_V2_LINE_SET_CONFIG_IOCTL, &config), ENODEV);
    int again = open_chip(5), held = request_lines(again, &line, 1, GPIO_V2_LINE_FLAG_INPUT, "again");
    CHECK(held >= 0 && values(held, 1) == 0);
    close(edges);
    CHECK(values(held, 1) == 0 && say("unplug gpiochip5"));
    close(held);
    close(again);
    close(chip);
}

static void test_waiting_event(void) {
    const uint32_t line = 0;
    struct gpio_v2_line_event event;
    test("events that wait are lost with the chip");
    CHECK(say("probe short 1"));
    int chip = open_chip(3);
    int edges = request_lines(chip, &line, 1, GPIO_V2_LINE_FLAG_INPUT | GPIO_V2_LINE_FLAG_EDGE_RISING, "edges");
    CHECK(say("write gpiochip3/sim_gpio0/pull pull-up") && polled(edges, WAIT_MOST) == POLLIN);
    CHECK(say("unplug gpiochip3") && polled(edges, 0) == shown_gone());
    CHECK_ERROR(read(edges, &event, sizeof event), ENODEV);
    close(edges);
    close(chip);
}

static void test_device(void) {
    int chip = open_chip(1);
    test("a device that is taken down takes its chip with it");
    CHECK(chip >= 0 && say("write board/live 0") && polled(chip, 0) == shown_gone());
    CHECK(say("write board/live 1") && close(open_chip(6)) == 0);
    close(chip);
}

void test_removal(void) {
    test_arrival();
    test_unplug();
    test_waiting_event();
    test_held();
    test_device();
}
