/* wheel CHIP LINE
 *
 * Counts the turns of a wheel: each rising edge of the line, which is named by its offset. On SIGTERM or SIGINT it
 * prints how many there were.
 *
 * With FAULTY defined it is the daemon as it was first written, with two faults that no test of the usual way shows. It
 * is the example of docs/SWEEP.md.
 *
 * Status 0 after the signal, 1 where it can't begin, 2 for wrong arguments, 3 once the chip is gone, 4 where edges were
 * lost, since the count is worthless then. */
#define _GNU_SOURCE
#include <errno.h>
#include <fcntl.h>
#include <linux/gpio.h>
#include <poll.h>
#include <signal.h>
#include <stdbool.h>
#include <stdint.h>
#include <stdio.h>
#include <stdlib.h>
#include <string.h>
#include <sys/ioctl.h>
#include <sys/signalfd.h>
#include <unistd.h>

#define CONSUMER "wheel"

enum status { DONE = 0, FAILED = 1, USAGE = 2, GONE = 3, LOST = 4 };

/* The wheel: its line's request, the signals, the turns so far, and the number of the last edge of the line. */
struct wheel {
    int line;
    int signals;
    uint64_t turns;
    uint32_t last;
};

/* Blocks SIGTERM and SIGINT, and makes the file that shows them. -1 where it can't be made. */
static int watch_signals(void) {
    sigset_t set;

    sigemptyset(&set);
    sigaddset(&set, SIGTERM);
    sigaddset(&set, SIGINT);
    sigprocmask(SIG_BLOCK, &set, NULL);
    return signalfd(-1, &set, SFD_CLOEXEC);
}

/* Requests the line's rising edges: the request's file, or -1, with errno. */
static int request_line(const char *path, uint32_t offset) {
    struct gpio_v2_line_request request = {.offsets = {offset},
        .num_lines = 1,
        .consumer = CONSUMER,
        .config = {.flags = GPIO_V2_LINE_FLAG_INPUT | GPIO_V2_LINE_FLAG_EDGE_RISING}};
    int chip = open(path, O_RDWR | O_CLOEXEC);
    int result = chip < 0 ? -1 : ioctl(chip, GPIO_V2_GET_LINE_IOCTL, &request);
    int error = errno;

    if (chip >= 0)
        close(chip);
    errno = error;
    return result < 0 ? -1 : request.fd;
}

/* Whether edges came between the last event that was read and this one. */
static bool has_gap(const struct wheel *wheel, const struct gpio_v2_line_event *event) {
#ifdef FAULTY
    (void)wheel;
    (void)event; /* (it trusts that each edge is read) */
    return false;
#else
    return event->line_seqno != wheel->last + 1;
#endif
}

/* Takes the event that waits. DONE where the wheel turns on. */
static enum status take_event(struct wheel *wheel) {
    struct gpio_v2_line_event event;
    ssize_t length = read(wheel->line, &event, sizeof event);

    if (length < 0 && (errno == EINTR || errno == EAGAIN))
        return DONE;
#ifdef FAULTY
    if (length < 0)
        return DONE; /* (it takes every error for one that passes) */
#endif
    if (length != sizeof event) {
        fprintf(stderr, "wheel: the chip is gone: %s\n", strerror(errno));
        return GONE;
    }
    if (has_gap(wheel, &event)) {
        fprintf(stderr, "wheel: edges were lost\n");
        return LOST;
    }
    wheel->last = event.line_seqno;
    wheel->turns++;
    return DONE;
}

/* Counts until a signal comes, or the wheel can't be counted any more. */
static enum status serve(struct wheel *wheel) {
    struct pollfd waits[] = {{.fd = wheel->line, .events = POLLIN}, {.fd = wheel->signals, .events = POLLIN}};
    enum status status = DONE;

    while (status == DONE) {
        if (poll(waits, 2, -1) < 0 && errno != EINTR)
            return FAILED;
        if (waits[0].revents) {
            status = take_event(wheel);
            continue;
        }
        if (waits[1].revents) {
            printf("%llu turns\n", (unsigned long long)wheel->turns);
            return DONE;
        }
    }
    return status;
}

int main(int argc, char **argv) {
    struct wheel wheel = {0};
    char *rest = NULL;
    unsigned long offset = argc == 3 ? strtoul(argv[2], &rest, 10) : 0;

    if (argc != 3 || rest == argv[2] || *rest != '\0' || offset > UINT32_MAX) {
        fputs("usage: wheel CHIP LINE, as wheel /dev/gpiochip0 0\n", stderr);
        return USAGE;
    }
    wheel.signals = watch_signals();
    wheel.line = request_line(argv[1], (uint32_t)offset);
    if (wheel.line < 0 || wheel.signals < 0) {
        fprintf(stderr, "wheel: line %lu of %s can't be had: %s\n", offset, argv[1], strerror(errno));
        return FAILED;
    }
    enum status status = serve(&wheel);
    close(wheel.line);
    close(wheel.signals);
    return (int)status;
}
