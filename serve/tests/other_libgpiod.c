/* A program on libgpiod 1.6, as its users write it: finds a line by its name, waits for a press, and drives another
 * line. */
#include <gpiod.h>
#include <stdio.h>
#include <string.h>

int main(void) {
    struct timespec wait = {5, 0};
    struct gpiod_line_event event;
    struct gpiod_chip *chip = gpiod_chip_open_lookup("soc-gpio");
    struct gpiod_line *button = gpiod_line_find("BUTTON");
    struct gpiod_line *led = chip ? gpiod_chip_find_line(chip, "LED") : NULL;
    if (!button || !led || gpiod_line_request_output(led, "program", 0))
        return 1;
    if (gpiod_line_request_both_edges_events(button, "program") || puts("waits") < 0 || fflush(stdout))
        return 2;
    if (gpiod_line_event_wait(button, &wait) != 1 || gpiod_line_event_read(button, &event))
        return 3;
    if (event.event_type != GPIOD_LINE_EVENT_RISING_EDGE || gpiod_line_set_value(led, 1))
        return 4;
    printf("%s drives %s: %d\n", gpiod_line_consumer(button), gpiod_line_name(led), gpiod_line_get_value(led));
    gpiod_line_close_chip(button);
    gpiod_chip_close(chip);
    return 0;
}
