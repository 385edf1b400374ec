#include "check.h"

#include <errno.h>
#include <fcntl.h>
#include <poll.h>
#include <signal.h>
#include <stdarg.h>
#include <stdio.h>
#include <string.h>
#include <sys/ioctl.h>
#include <sys/wait.h>
#include <time.h>
#include <unistd.h>

#include "../say/say.h"

static const char *current = "";
static unsigned passed, failed;
static bool current_good = true;

static void end_test(void) {
    if (!*current)
        return;
    printf("%s %s\n", current_good ? "ok" : "FAILED", current);
    fflush(stdout);
    *(current_good ? &passed : &failed) += 1;
}

void test(const char *name) {
    end_test();
    current = name;
    current_good = true;
}

void check_one(bool good, int line, const char *text) {
    if (good)
        return;
    printf("  %s, line %d: %s (errno %d)\n", current, line, text, errno);
    current_good = false;
}

void check_error(bool is_failed, int number, int line, const char *text) {
    if (is_failed && errno == number)
        return;
    printf("  %s, line %d: %s: %s, expected %s\n", current, line, text, is_failed ? strerror(errno) : "done",
        strerror(number));
    current_good = false;
}

bool test_end(void) {
    test("");
    printf("%u passed, %u failed\n", passed, failed);
    return failed == 0;
}

static struct say broker = {.connection = -1};
static pid_t owner;

bool say(const char *form, ...) {
    char line[512];
    va_list parts;
    va_start(parts, form);
    vsnprintf(line, sizeof line, form, parts);
    va_end(parts);
    if (owner != getpid() && say_open(&broker, NULL))
        return false;
    owner = getpid();
    return say_statement(&broker, line) == 0;
}

const char *said(void) {
    return broker.text ? broker.text : "";
}

bool said_none(void) {
    return broker.is_none;
}

bool pull(unsigned line, bool up) {
    return say("write gpiochip0/sim_gpio%u/pull %s", line, up ? "pull-up" : "pull-down");
}

int open_chip(unsigned number) {
    char path[32];
    snprintf(path, sizeof path, "/dev/gpiochip%u", number);
    return open(path, O_RDWR | O_CLOEXEC);
}

static int get_line(int chip, struct gpio_v2_line_request *request) {
    return ioctl(chip, GPIO_V2_GET_LINE_IOCTL, request) ? -1 : request->fd;
}

int request_lines(int chip, const uint32_t *lines, uint32_t count, uint64_t flags, const char *consumer) {
    struct gpio_v2_line_request request;
    memset(&request, 0, sizeof request);
    memcpy(request.offsets, lines, count * sizeof *lines);
    strncpy(request.consumer, consumer, sizeof request.consumer - 1);
    request.config.flags = flags;
    request.num_lines = count;
    return get_line(chip, &request);
}

int request(uint32_t line, uint64_t flags) {
    int chip = open_chip(0);
    int lines = chip < 0 ? -1 : request_lines(chip, &line, 1, flags, "test");
    int error = errno;
    close(chip);
    errno = error;
    return lines;
}

#define EDGES (GPIO_V2_LINE_FLAG_INPUT | GPIO_V2_LINE_FLAG_EDGE_RISING | GPIO_V2_LINE_FLAG_EDGE_FALLING)

int request_edges(uint32_t line) {
    return request(line, EDGES);
}

int request_debounced(uint32_t line, uint32_t period) {
    struct gpio_v2_line_request asked;
    int chip = open_chip(0);
    memset(&asked, 0, sizeof asked);
    asked.offsets[0] = line;
    asked.num_lines = 1;
    asked.config.flags = EDGES;
    asked.config.num_attrs = 1;
    asked.config.attrs[0].mask = 1;
    asked.config.attrs[0].attr.id = GPIO_V2_LINE_ATTR_ID_DEBOUNCE;
    asked.config.attrs[0].attr.debounce_period_us = period;
    int lines = get_line(chip, &asked);
    close(chip);
    return lines;
}

long values(int lines, uint64_t mask) {
    struct gpio_v2_line_values asked = {.mask = mask};
    return ioctl(lines, GPIO_V2_LINE_GET_VALUES_IOCTL, &asked) ? -1 : (long)asked.bits;
}

int set_values(int lines, uint64_t bits, uint64_t mask) {
    struct gpio_v2_line_values asked = {.bits = bits, .mask = mask};
    return ioctl(lines, GPIO_V2_LINE_SET_VALUES_IOCTL, &asked);
}

short polled(int file, int timeout) {
    struct pollfd wait = {.fd = file, .events = POLLIN};
    return poll(&wait, 1, timeout) < 0 ? -1 : wait.revents;
}

bool is_notified;

void leave_out(const char *what) {
    printf("left out: %s\n", what);
}

short shown_gone(void) {
    return is_notified ? POLLHUP : POLLHUP | POLLERR;
}

bool ended_with_chip(ssize_t got) {
    return is_notified ? got == 0 : got < 0 && errno == ENODEV;
}

void pause_for(unsigned milliseconds) {
    struct timespec time = {milliseconds / 1000, (long)(milliseconds % 1000) * 1000000};
    nanosleep(&time, NULL);
}

pid_t run_child(int (*work)(int), int argument) {
    fflush(stdout);
    pid_t child = fork();
    if (child == 0)
        _exit(work(argument));
    return child;
}

int end_of(pid_t child) {
    int status;
    return waitpid(child, &status, 0) == child && WIFEXITED(status) ? WEXITSTATUS(status) : -1;
}

int end_within(pid_t child, unsigned seconds) {
    int status;
    for (unsigned turn = 0; turn < 100 * seconds; turn++) {
        pid_t ended = waitpid(child, &status, WNOHANG);
        if (ended != 0)
            return ended == child && WIFEXITED(status) ? WEXITSTATUS(status) : -1;
        pause_for(10);
    }
    kill(child, SIGKILL);
    end_of(child);
    return -1;
}
