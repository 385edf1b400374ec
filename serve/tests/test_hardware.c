/* The machine's own chips, for which /dev/null stands: tests/hardware has /proc/devices say that its major number is
 * that of GPIO chips, so that /dev/null is chip 3. */
#include <errno.h>
#include <fcntl.h>
#include <stdio.h>
#include <stdlib.h>
#include <string.h>
#include <sys/ioctl.h>
#include <sys/stat.h>
#include <sys/syscall.h>
#include <sys/sysmacros.h>
#include <unistd.h>

#include "check.h"

/* The chip that /dev/null has the number of, and one that isn't there, which /dev/zero has. */
#define NULL_CHIP 3
#define ZERO_CHIP 5

static void test_opened(void) {
    struct gpiochip_info info;
    struct stat status;
    struct statx more;
    test("a chip of the machine is the simulated one of its number, by whatever name it is opened");
    CHECK(say("probe second 2") && say("probe third 3"));
    int chip = open("/dev/null", O_RDWR);
    CHECK(chip >= 0 && ioctl(chip, GPIO_GET_CHIPINFO_IOCTL, &info) == 0 && strcmp(info.label, "third") == 0);
    CHECK(stat("/dev/null", &status) == 0 && status.st_rdev == makedev(254, NULL_CHIP));
    CHECK(statx(AT_FDCWD, "/dev/null", 0, STATX_BASIC_STATS, &more) == 0 && more.stx_rdev_minor == NULL_CHIP);
    CHECK_ERROR(open("/dev/zero", O_RDWR), ENOENT);
    CHECK_ERROR(stat("/dev/zero", &status), ENOENT);
    close(chip);
}

static bool is_demo(int chip) {
    struct gpiochip_info info;
    return chip >= 0 && ioctl(chip, GPIO_GET_CHIPINFO_IOCTL, &info) == 0 && strcmp(info.label, "demo") == 0;
}

/* (nothing can be made in /dev here, so that a fault leaves no file there) */
static void test_made(void) {
    char folder[] = "/tmp/gpioserve-test.XXXXXX", path[64];
    test("opening a chip with O_CREAT makes no file");
    CHECK(mkdtemp(folder) != NULL);
    snprintf(path, sizeof path, "%s/link", folder);
    CHECK(symlink("/dev/gpiochip0", path) == 0);
    const int chips[] = {open(path, O_RDWR | O_CREAT, 0600), open("/dev/gpiochip0", O_RDWR | O_CREAT, 0600),
        open("/dev/../dev/gpiochip0", O_RDWR | O_CREAT, 0600), creat("/dev/gpiochip0", 0600), creat(path, 0600)};
    for (size_t i = 0; i < sizeof chips / sizeof *chips; i++) {
        CHECK(is_demo(chips[i]));
        close(chips[i]);
    }
    CHECK_ERROR(open("/dev/gpiochip0", O_RDWR | O_CREAT | O_EXCL, 0600), EEXIST);
    CHECK_ERROR(creat("/dev/gpiochip7", 0600), ENOENT);
    unlink(path);
    rmdir(folder);
}

/* What a refused command says goes to a pipe in the place of standard error. */
static void test_refused(void) {
    struct gpiochip_info info;
    struct gpio_v2_line_request asked = {.num_lines = 1};
    char text[256] = "";
    int ends[2], kept = dup(STDERR_FILENO);
    int chip = (int)syscall(SYS_openat, AT_FDCWD, "/dev/null", O_RDWR),
        tty = (int)syscall(SYS_openat, AT_FDCWD, "/dev/ptmx", O_RDWR);
    test("a command on a chip of the machine is refused, and said once");
    CHECK(chip >= 0 && pipe2(ends, O_NONBLOCK) == 0 && dup2(ends[1], STDERR_FILENO) == STDERR_FILENO);
    CHECK_ERROR(ioctl(chip, GPIO_GET_CHIPINFO_IOCTL, &info), EPERM);
    CHECK_ERROR(ioctl(chip, GPIO_V2_GET_LINE_IOCTL, &asked), EPERM);
    CHECK(tty < 0 || (ioctl(tty, GPIO_GET_CHIPINFO_IOCTL, &info) == -1 && errno != EPERM));
    ssize_t length = read(ends[0], text, sizeof text - 1);
    CHECK(dup2(kept, STDERR_FILENO) == STDERR_FILENO);
    CHECK(length > 0 && strncmp(text, "gpioserve: refused command 0x8044b401 on file ", 46) == 0);
    CHECK(strchr(text, '\n') == text + length - 1);
    close(tty);
    close(chip);
    close(kept);
    close(ends[0]);
    close(ends[1]);
}

void test_hardware(void) {
    test_made();
    test_opened();
    test_refused();
}
