/* A program in C on whatever C library there is, as musl: it looks at the chips' names, requests a line with both
 * edges, and waits for it by poll and in a read. */
#include <dirent.h>
#include <fcntl.h>
#include <linux/gpio.h>
#include <poll.h>
#include <stdio.h>
#include <string.h>
#include <sys/ioctl.h>
#include <sys/stat.h>
#include <unistd.h>

static int count_chips(void) {
    struct dirent *entry;
    DIR *folder = opendir("/dev");
    int count = 0;
    while (folder && (entry = readdir(folder)))
        count += strncmp(entry->d_name, "gpiochip", strlen("gpiochip")) == 0;
    if (folder)
        closedir(folder);
    return count;
}

int main(void) {
    struct gpio_v2_line_request asked;
    struct gpio_v2_line_event event;
    struct stat status;
    char number[16] = "";
    memset(&asked, 0, sizeof asked);
    asked.offsets[0] = 3;
    asked.num_lines = 1;
    asked.config.flags = GPIO_V2_LINE_FLAG_INPUT | GPIO_V2_LINE_FLAG_EDGE_RISING | GPIO_V2_LINE_FLAG_EDGE_FALLING;
    FILE *file = fopen("/sys/bus/gpio/devices/gpiochip1/dev", "r");
    int chip = open("/dev/gpiochip1", O_RDWR | O_CLOEXEC);
    if (!file || !fgets(number, sizeof number, file) || fclose(file) || stat("/dev/gpiochip1", &status) ||
        ioctl(chip, GPIO_V2_GET_LINE_IOCTL, &asked)) {
        perror("FAILED");
        return 1;
    }
    struct pollfd wait = {.fd = asked.fd, .events = POLLIN};
    if (poll(&wait, 1, 30000) != 1 || read(asked.fd, &event, sizeof event) != sizeof event) {
        perror("FAILED");
        return 1;
    }
    number[strcspn(number, "\n")] = 0;
    printf(
        "%d %s %s %u %u\n", count_chips(), S_ISCHR(status.st_mode) ? "device" : "file", number, event.id, event.seqno);
    return 0;
}
