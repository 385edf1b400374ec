/* powerbutton [-d MILLISECONDS] CHIP BUTTON LED
 *
 * A power button: each press of the line BUTTON switches the line LED, on and off by turns. Lines are named. The
 * button's edges count once it has been still for 10 milliseconds, or as many as -d says.
 *
 * It speaks to linux/gpio.h (uAPI v2) alone, and knows nothing of the board that it is tested on. It says on standard
 * output what it did, and on standard error what went wrong. Status 0 after SIGTERM or SIGINT, 1 where it can't begin,
 * 2 for wrong arguments, 3 once the chip is gone. */
#define _GNU_SOURCE
#include <errno.h>
#include <fcntl.h>
#include <linux/gpio.h>
#include <poll.h>
#include <signal.h>
#include <stdarg.h>
#include <stdbool.h>
#include <stdint.h>
#include <stdio.h>
#include <stdlib.h>
#include <string.h>
#include <sys/ioctl.h>
#include <sys/signalfd.h>
#include <unistd.h>

#define CONSUMER "powerbutton"
#define DEBOUNCE_MS 10
#define DEBOUNCE_MS_MAX 60000

enum status { DONE = 0, FAILED = 1, USAGE = 2, GONE = 3 };

/* The daemon: its files, which it closes at its end, and whether the LED is on. */
struct daemon {
    const char *chip_path;
    const char *led_name;
    int chip;
    int button;
    int led;
    int signals;
    bool on;
};

/* Says on standard error what went wrong. */
__attribute__((format(printf, 1, 2))) static void complain(const char *form, ...) {
    va_list values;

    fputs("powerbutton: ", stderr);
    va_start(values, form);
    vfprintf(stderr, form, values);
    va_end(values);
    fputc('\n', stderr);
}

/* The offset of the line of that name, or -1, and reported. */
static int find_line(const struct daemon *daemon, const char *name) {
    struct gpiochip_info chip = {0};

    if (ioctl(daemon->chip, GPIO_GET_CHIPINFO_IOCTL, &chip) < 0) {
        complain("%s is no GPIO chip: %s", daemon->chip_path, strerror(errno));
        return -1;
    }
    for (uint32_t offset = 0; offset < chip.lines; offset++) {
        struct gpio_v2_line_info line = {.offset = offset};

        if (ioctl(daemon->chip, GPIO_V2_GET_LINEINFO_IOCTL, &line) < 0) {
            complain("line %u of %s says nothing of itself: %s", offset, daemon->chip_path, strerror(errno));
            return -1;
        }
        if (strncmp(line.name, name, sizeof line.name) == 0)
            return (int)offset;
    }
    complain("%s has no line %s", daemon->chip_path, name);
    return -1;
}

/* Requests the line of that name with this configuration: the request's file, or -1, and reported. */
static int request_line(const struct daemon *daemon, const char *name, const struct gpio_v2_line_config *config) {
    struct gpio_v2_line_request request = {.num_lines = 1, .consumer = CONSUMER, .config = *config};
    int offset = find_line(daemon, name);

    if (offset < 0)
        return -1;
    request.offsets[0] = (uint32_t)offset;
    if (ioctl(daemon->chip, GPIO_V2_GET_LINE_IOCTL, &request) < 0) {
        complain("%s can't be had: %s", name, strerror(errno));
        return -1;
    }
    return request.fd;
}

/* Requests the button, which reports a press and a release once it was still for that long. */
static int request_button(const struct daemon *daemon, const char *name, uint32_t milliseconds) {
    struct gpio_v2_line_config config = {
        .flags = GPIO_V2_LINE_FLAG_INPUT | GPIO_V2_LINE_FLAG_EDGE_RISING | GPIO_V2_LINE_FLAG_EDGE_FALLING,
        .num_attrs = 1,
        .attrs[0] = {.attr = {.id = GPIO_V2_LINE_ATTR_ID_DEBOUNCE, .debounce_period_us = milliseconds * 1000},
            .mask = 1},
    };

    return request_line(daemon, name, &config);
}

/* Requests the LED, which is off. */
static int request_led(const struct daemon *daemon, const char *name) {
    struct gpio_v2_line_config config = {.flags = GPIO_V2_LINE_FLAG_OUTPUT};

    return request_line(daemon, name, &config);
}

/* Blocks SIGTERM and SIGINT, and makes the file that tells of them. -1 where it can't be made, and reported. */
static int watch_signals(void) {
    sigset_t set;
    int file;

    sigemptyset(&set);
    sigaddset(&set, SIGTERM);
    sigaddset(&set, SIGINT);
    sigprocmask(SIG_BLOCK, &set, NULL);
    file = signalfd(-1, &set, SFD_CLOEXEC);
    if (file < 0)
        complain("signals can't be watched: %s", strerror(errno));
    return file;
}

/* Switches the LED. Where that fails it stays as it is, and the next press tries again. False once the chip is gone. */
static bool switch_led(struct daemon *daemon) {
    struct gpio_v2_line_values values = {.bits = !daemon->on, .mask = 1};

    if (ioctl(daemon->led, GPIO_V2_LINE_SET_VALUES_IOCTL, &values) == 0) {
        daemon->on = !daemon->on;
        printf("%s is %s\n", daemon->led_name, daemon->on ? "on" : "off");
        return true;
    }
    if (errno == ENODEV)
        return false;
    complain("%s can't be switched: %s", daemon->led_name, strerror(errno));
    return true;
}

/* Takes the event that waits. False once the chip is gone. */
static bool take_event(struct daemon *daemon) {
    struct gpio_v2_line_event event;
    ssize_t length = read(daemon->button, &event, sizeof event);

    if (length == sizeof event)
        return event.id != GPIO_V2_LINE_EVENT_RISING_EDGE || switch_led(daemon);
    if (length < 0 && (errno == EINTR || errno == EAGAIN))
        return true;
    if (length < 0 && errno != ENODEV)
        complain("no event can be read: %s", strerror(errno));
    return false;
}

/* Waits for the button, until a signal comes or the chip goes. */
static enum status serve(struct daemon *daemon) {
    struct pollfd waits[] = {{.fd = daemon->button, .events = POLLIN}, {.fd = daemon->signals, .events = POLLIN}};

    for (;;) {
        if (poll(waits, 2, -1) < 0 && errno != EINTR) {
            complain("poll: %s", strerror(errno));
            return FAILED;
        }
        if (waits[1].revents)
            return DONE;
        if (waits[0].revents & (POLLHUP | POLLERR) || (waits[0].revents & POLLIN && !take_event(daemon))) {
            complain("%s is gone", daemon->chip_path);
            return GONE;
        }
    }
}

/* Opens all that the daemon needs. False where something can't be had, and reported. */
static bool begin(struct daemon *daemon, const char *button, uint32_t milliseconds) {
    daemon->signals = watch_signals();
    if (daemon->signals < 0)
        return false;
    daemon->chip = open(daemon->chip_path, O_RDWR | O_CLOEXEC);
    if (daemon->chip < 0) {
        complain("%s can't be opened: %s", daemon->chip_path, strerror(errno));
        return false;
    }
    daemon->button = request_button(daemon, button, milliseconds);
    if (daemon->button < 0)
        return false;
    daemon->led = request_led(daemon, daemon->led_name);
    return daemon->led >= 0;
}

/* Closes what is open. */
static void end(const struct daemon *daemon) {
    const int files[] = {daemon->led, daemon->button, daemon->chip, daemon->signals};

    for (size_t at = 0; at < sizeof files / sizeof *files; at++)
        if (files[at] >= 0)
            close(files[at]);
}

/* A number of milliseconds from 0 to DEBOUNCE_MS_MAX, or -1. */
static long milliseconds_of(const char *text) {
    char *rest;
    long number = strtol(text, &rest, 10);

    return *text >= '0' && *text <= '9' && *rest == '\0' && number <= DEBOUNCE_MS_MAX ? number : -1;
}

int main(int argc, char **argv) {
    struct daemon daemon = {.chip = -1, .button = -1, .led = -1, .signals = -1};
    long milliseconds = DEBOUNCE_MS;
    enum status status = FAILED;
    int option;

    while ((option = getopt(argc, argv, "d:")) != -1)
        milliseconds = option == 'd' ? milliseconds_of(optarg) : -1;
    if (argc - optind != 3 || milliseconds < 0) {
        fputs(
            "usage: powerbutton [-d MILLISECONDS] CHIP BUTTON LED, as powerbutton /dev/gpiochip0 POWER LED\n", stderr);
        return USAGE;
    }
    setvbuf(stdout, NULL, _IOLBF, 0);
    daemon.chip_path = argv[optind];
    daemon.led_name = argv[optind + 2];
    if (begin(&daemon, argv[optind + 1], (uint32_t)milliseconds)) {
        printf("%s switches %s\n", argv[optind + 1], daemon.led_name);
        status = serve(&daemon);
    }
    end(&daemon);
    return (int)status;
}
