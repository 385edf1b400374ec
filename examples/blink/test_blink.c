/* A test of a driver of an LED: it drives a line of the first chip, and asks the outside world for its level.
 * test_blink LINE [wrong]: with `wrong` it expects the other level, and fails. */
#include <fcntl.h>
#include <linux/gpio.h>
#include <stdio.h>
#include <stdlib.h>
#include <string.h>
#include <sys/ioctl.h>
#include <unistd.h>

/* Test runners take this status for a test that was left out. */
#define LEFT_OUT 77

/* The level of a line as the outside world sees it; -1 where it can't be had. */
static int level_of(unsigned line) {
    char command[64], text[8] = "";
    snprintf(command, sizeof command, "gpiosay 'read gpiochip0/sim_gpio%u/value'", line);
    FILE *says = popen(command, "r");
    int got = says && fgets(text, sizeof text, says);
    if (says && pclose(says) != 0)
        return -1;
    return got ? atoi(text) : -1;
}

int main(int count, char **words) {
    unsigned line = count > 1 ? (unsigned)atoi(words[1]) : 0;
    int wrong = count > 2 && strcmp(words[2], "wrong") == 0;
    if (!getenv("GPIOSERVE"))
        return LEFT_OUT; /* (a chip of this machine is driven by no test) */
    struct gpio_v2_line_request request = {.num_lines = 1, .offsets = {line}, .consumer = "blink"};
    request.config.flags = GPIO_V2_LINE_FLAG_OUTPUT;
    int chip = open("/dev/gpiochip0", O_RDWR | O_CLOEXEC);
    if (chip < 0 || ioctl(chip, GPIO_V2_GET_LINE_IOCTL, &request)) {
        perror("blink: GET_LINE");
        return EXIT_FAILURE;
    }
    for (int level = 1; level >= 0; level--) {
        struct gpio_v2_line_values values = {.bits = (unsigned)level, .mask = 1};
        int expected = wrong ? !level : level;
        if (ioctl(request.fd, GPIO_V2_LINE_SET_VALUES_IOCTL, &values) || level_of(line) != expected) {
            fprintf(stderr, "blink: line %u has level %d, expected %d\n", line, level_of(line), expected);
            return EXIT_FAILURE;
        }
    }
    return EXIT_SUCCESS;
}
