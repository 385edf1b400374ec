/* Queues that overflow: queues [SEED [STEPS]]. Does things by chance with requests of all sizes of queues, a request of
 * version 1 and a watching chip file, and prints each event and change that it reads. The clock is moved by statements
 * alone, so that what it prints is the same however its calls come to the broker. */
#include <errno.h>
#include <fcntl.h>
#include <inttypes.h>
#include <stdio.h>
#include <stdlib.h>
#include <string.h>
#include <sys/ioctl.h>
#include <unistd.h>

#include "check.h"

/* The chip that is made for this, and its lines. */
#define CHIP 2
#define LINES 64
/* Lines of the requests, and the line of the request of version 1, behind which lines are free. */
#define REQUESTS 8
#define LINES_EACH 6
#define LINE_OF_VERSION1 (REQUESTS * LINES_EACH)
#define FREE_LINE (LINE_OF_VERSION1 + 1)
#define FREE_LINES (LINES - FREE_LINE)
/* Nanoseconds by which the clock goes on at most, and a debounce period in microseconds. */
#define LONGEST_STEP 3000000u
#define PERIOD 1000
/* Items that a read has room for, at most. */
#define MOST_ITEMS 1024

/* How many events each request asks room for: none, few, more than there is. */
static const uint32_t sizes[REQUESTS] = {0, 1, 2, 5, 16, 33, 1000, 5000};

static uint64_t state, now;
static int files[REQUESTS], old_file, chip;

static uint32_t below(uint32_t bound) {
    state = state * 6364136223846793005u + 1442695040888963407u;
    return (uint32_t)(state >> 33) % bound;
}

static void fail(const char *what) {
    printf("FAILED %s: %s\n", what, strerror(errno));
    exit(1);
}

static int request_many(uint32_t first, uint32_t size, bool debounced) {
    struct gpio_v2_line_request asked;
    memset(&asked, 0, sizeof asked);
    for (uint32_t i = 0; i < LINES_EACH; i++)
        asked.offsets[i] = first + i;
    asked.num_lines = LINES_EACH;
    asked.event_buffer_size = size;
    asked.config.flags = GPIO_V2_LINE_FLAG_INPUT | GPIO_V2_LINE_FLAG_EDGE_RISING | GPIO_V2_LINE_FLAG_EDGE_FALLING;
    if (debounced) {
        asked.config.num_attrs = 1;
        asked.config.attrs[0].attr.id = GPIO_V2_LINE_ATTR_ID_DEBOUNCE;
        asked.config.attrs[0].attr.debounce_period_us = PERIOD;
        asked.config.attrs[0].mask = (1u << LINES_EACH) - 1;
    }
    if (ioctl(chip, GPIO_V2_GET_LINE_IOCTL, &asked) || fcntl(asked.fd, F_SETFL, O_NONBLOCK))
        fail("a request");
    return asked.fd;
}

static void begin(void) {
    struct gpioevent_request asked = {.lineoffset = LINE_OF_VERSION1,
        .handleflags = GPIOHANDLE_REQUEST_INPUT,
        .eventflags = GPIOEVENT_REQUEST_BOTH_EDGES};
    if (!say("probe wide %d", LINES) || (chip = open_chip(CHIP)) < 0 || fcntl(chip, F_SETFL, O_NONBLOCK))
        fail("the chip");
    for (uint32_t i = 0; i < REQUESTS; i++)
        files[i] = request_many(LINES_EACH * i, sizes[i], i % 2 == 0 && i < REQUESTS - 2);
    if (ioctl(chip, GPIO_GET_LINEEVENT_IOCTL, &asked) || fcntl(asked.fd, F_SETFL, O_NONBLOCK))
        fail("a request of version 1");
    old_file = asked.fd;
    for (uint32_t line = FREE_LINE; line < LINES; line++) {
        struct gpio_v2_line_info info = {.offset = line};
        if (ioctl(chip, GPIO_V2_GET_LINEINFO_WATCH_IOCTL, &info))
            fail("a watch");
    }
}

static void pull_some(void) {
    uint32_t line = below(LINE_OF_VERSION1 + 1), count = below(4) ? 1 + below(4) : below(60);
    for (uint32_t i = 0; i < count; i++)
        say("write gpiochip%d/sim_gpio%" PRIu32 "/pull pull-%s", CHIP, below(8) ? line : below(LINE_OF_VERSION1 + 1),
            below(2) ? "up" : "down");
}

static void move_clock(void) {
    now += below(LONGEST_STEP);
    say("clock %" PRIu64 " 0", now);
}

/* Requests and releases free lines, which are changes. */
static void change_some(void) {
    for (uint32_t count = below(12); count > 0; count--)
        say("gpioset -c %d %" PRIu32 "=1", CHIP, FREE_LINE + below(FREE_LINES));
}

static void read_events(uint32_t which) {
    static struct gpio_v2_line_event events[MOST_ITEMS];
    uint32_t room = below(3) ? 1 + below(20) : 1 + below(MOST_ITEMS);
    ssize_t got = read(files[which], events, room * sizeof *events);
    if (got < 0)
        printf("%" PRIu32 ": %s\n", which, strerror(errno));
    for (ssize_t i = 0; i < got / (ssize_t)sizeof *events; i++)
        printf("%" PRIu32 ": %llu %u %u %u %u\n", which, (unsigned long long)events[i].timestamp_ns, events[i].id,
            events[i].offset, events[i].seqno, events[i].line_seqno);
}

static void read_old_events(void) {
    struct gpioevent_data events[40];
    ssize_t got = read(old_file, events, (1 + below(40)) * sizeof *events);
    if (got < 0)
        printf("version 1: %s\n", strerror(errno));
    for (ssize_t i = 0; i < got / (ssize_t)sizeof *events; i++)
        printf("version 1: %llu %u\n", (unsigned long long)events[i].timestamp, events[i].id);
}

static void read_changes(void) {
    static struct gpio_v2_line_info_changed changes[40];
    ssize_t got = read(chip, changes, (1 + below(40)) * sizeof *changes);
    if (got < 0)
        printf("changes: %s\n", strerror(errno));
    for (ssize_t i = 0; i < got / (ssize_t)sizeof *changes; i++)
        printf("changes: %llu %u %u %s %llx\n", (unsigned long long)changes[i].timestamp_ns, changes[i].event_type,
            changes[i].info.offset, changes[i].info.consumer, (unsigned long long)changes[i].info.flags);
}

static void step(void) {
    switch (below(8)) {
    case 0:
        move_clock();
        break;
    case 1:
        change_some();
        break;
    case 2:
        read_events(below(REQUESTS));
        break;
    case 3:
        if (below(3) == 0)
            read_changes();
        else if (below(2) == 0)
            read_old_events();
        break;
    default:
        pull_some();
    }
}

/* Pulls a line of each of the largest requests until both queues are full. */
static void fill_largest(void) {
    for (uint32_t i = 0; i < MOST_ITEMS + MOST_ITEMS / 8; i++)
        for (uint32_t which = REQUESTS - 2; which < REQUESTS; which++)
            say("write gpiochip%d/sim_gpio%" PRIu32 "/pull pull-%s", CHIP, LINES_EACH * which + 1,
                i % 2 ? "up" : "down");
    move_clock();
}

int main(int count, char **words) {
    long steps = count > 2 ? atol(words[2]) : 1000;
    state = count > 1 ? strtoull(words[1], NULL, 10) : 1;
    begin();
    for (long i = 0; i < steps; i++)
        step();
    fill_largest();
    for (uint32_t i = 0; i < REQUESTS; i++)
        read_events(i);
    return 0;
}
