/* Addresses at which there is nothing, memory that can't be written, and threads with small stacks. */
#include <errno.h>
#include <fcntl.h>
#include <limits.h>
#include <poll.h>
#include <pthread.h>
#include <stdio.h>
#include <stdlib.h>
#include <string.h>
#include <sys/ioctl.h>
#include <sys/mman.h>
#include <sys/stat.h>
#include <sys/uio.h>
#include <unistd.h>

#include "check.h"

/* Addresses at which there is nothing, of which the compiler knows nothing either. */
static void *volatile nowhere = (void *)16;
static void *volatile null = NULL;

/* (a kernel before 6.11 answers EFAULT) */
static void test_no_path(void) {
    struct statx more;
    int (*look)(int, const char *, int, unsigned, struct statx *) = statx;
    int chip = open_chip(0);
    test("the status of a file by no path at all");
    int result = look(chip, null, AT_EMPTY_PATH, STATX_BASIC_STATS, &more);
    CHECK(result == 0 ? S_ISCHR(more.stx_mode) && more.stx_rdev_major == 254 : errno == EFAULT);
    CHECK(statx(chip, "", AT_EMPTY_PATH, STATX_BASIC_STATS, &more) == 0 && S_ISCHR(more.stx_mode));
    close(chip);
}

static void test_structures(void) {
    const size_t page = (size_t)sysconf(_SC_PAGESIZE);
    struct gpio_v2_line_request *asked = mmap(NULL, page, PROT_READ | PROT_WRITE, MAP_PRIVATE | MAP_ANONYMOUS, -1, 0);
    int chip = open_chip(0);
    test("a structure that can't be written is EFAULT, and takes no line");
    CHECK(asked != MAP_FAILED);
    asked->offsets[0] = 6;
    asked->num_lines = 1;
    asked->config.flags = GPIO_V2_LINE_FLAG_INPUT;
    CHECK(mprotect(asked, page, PROT_READ) == 0);
    CHECK_ERROR(ioctl(chip, GPIO_V2_GET_LINE_IOCTL, asked), EFAULT);
    CHECK_ERROR(ioctl(chip, GPIO_GET_CHIPINFO_IOCTL, asked), EFAULT);
    int held = request(6, GPIO_V2_LINE_FLAG_INPUT);
    CHECK(held >= 0);
    close(held);
    munmap(asked, page);
    close(chip);
}

/* (the sanitizer of addresses looks at what is handed to a call itself, and takes more of a stack than there may be) */
#ifndef __SANITIZE_ADDRESS__
static void test_paths(void) {
    struct stat status;
    struct statx more;
    char text[16];
    const char *path = nowhere;
    char *target = nowhere;
    test("a path at which there is nothing is EFAULT");
    CHECK_ERROR(open(path, O_RDWR), EFAULT);
    CHECK_ERROR(openat(AT_FDCWD, path, O_RDWR | O_CREAT, 0600), EFAULT);
    CHECK_ERROR(stat(path, &status), EFAULT);
    CHECK_ERROR(fstatat(AT_FDCWD, path, &status, AT_EMPTY_PATH), EFAULT);
    CHECK_ERROR(statx(AT_FDCWD, path, AT_EMPTY_PATH, STATX_TYPE, &more), EFAULT);
    CHECK_ERROR(access(path, F_OK), EFAULT);
    CHECK_ERROR(readlink(path, text, sizeof text), EFAULT);
    CHECK_ERROR(readlink("/sys/bus/gpio/devices/gpiochip0", target, 16), EFAULT);
}

/* A path that ends where memory ends. */
static void test_last_path(void) {
    const size_t page = (size_t)sysconf(_SC_PAGESIZE);
    char *pages = mmap(NULL, 2 * page, PROT_READ | PROT_WRITE, MAP_PRIVATE | MAP_ANONYMOUS, -1, 0);
    test("a path that has no end before its memory's is EFAULT");
    CHECK(pages != MAP_FAILED && mprotect(pages + page, page, PROT_NONE) == 0);
    char *path = pages + page - strlen("/dev/gpiochip0");
    memcpy(path, "/dev/gpiochip0", strlen("/dev/gpiochip0"));
    CHECK_ERROR(open(path, O_RDWR), EFAULT);
    memmove(path - 1, "/dev/gpiochip0", sizeof "/dev/gpiochip0");
    int chip = open(path - 1, O_RDWR);
    CHECK(chip >= 0);
    close(chip);
    munmap(pages, 2 * page);
}

static void test_places(void) {
    struct gpio_v2_line_event events[2];
    int held = request_edges(1);
    struct iovec bad[] = {{nowhere, sizeof *events}};
    struct iovec two[] = {{&events[0], sizeof *events}, {nowhere, sizeof *events}};
    struct iovec small[] = {{&events[0], sizeof *events / 2}, {&events[1], sizeof *events}};
    test("readv fills one place after another, and nothing is EFAULT");
    CHECK_ERROR(readv(held, nowhere, 1), EFAULT);
    CHECK(fcntl(held, F_SETFL, O_NONBLOCK) == 0);
    CHECK(pull(1, true) && pull(1, false) && polled(held, WAIT_MOST) == POLLIN);
    CHECK_ERROR(readv(held, small, 2), EINVAL);
    /* (a pipe gives nothing where not all that it has can be written) */
    if (is_notified)
        CHECK_ERROR(readv(held, two, 2), EFAULT);
    else
        CHECK(readv(held, two, 2) == sizeof *events && events[0].id == GPIO_V2_LINE_EVENT_RISING_EDGE);
    CHECK(pull(1, true) && polled(held, WAIT_MOST) == POLLIN);
    CHECK_ERROR(readv(held, bad, 1), EFAULT);
    CHECK(pull(1, false));
    close(held);
}

static void *use_little(void *argument) {
    struct gpio_v2_line_event events[2];
    struct iovec places[] = {{&events[0], sizeof *events}, {&events[1], sizeof *events}};
    struct stat status;
    struct statx more;
    char text[64];
    const char *link = argument;
    int chip = open("/dev/../dev/gpiochip0", O_RDWR), other = open(link, O_RDWR), held = request_edges(1);
    bool good = chip >= 0 && other >= 0 && held >= 0 && fcntl(held, F_SETFL, O_NONBLOCK) == 0 &&
                stat(link, &status) == 0 && S_ISCHR(status.st_mode) && access(link, R_OK) == 0 &&
                statx(AT_FDCWD, link, 0, STATX_TYPE, &more) == 0 && S_ISCHR(more.stx_mode) &&
                readlink("/sys/bus/gpio/devices/gpiochip0", text, sizeof text) > 0 &&
                stat("/sys/bus/gpio/devices", &status) == 0 && values(held, 1) == 0 && readv(held, places, 2) < 0 &&
                errno == EAGAIN;
    close(held);
    close(other);
    close(chip);
    return good ? NULL : "wrong";
}

static void test_small_stack(void) {
    char folder[] = "/tmp/gpioserve-test.XXXXXX", path[64];
    pthread_attr_t attributes;
    pthread_t thread;
    void *wrong = NULL;
    test("a thread with the smallest stack");
    CHECK(mkdtemp(folder) != NULL);
    snprintf(path, sizeof path, "%s/chip", folder);
    CHECK(symlink("/dev/gpiochip0", path) == 0 && pthread_attr_init(&attributes) == 0);
    CHECK(pthread_attr_setstacksize(&attributes, (size_t)PTHREAD_STACK_MIN) == 0);
    CHECK(pthread_create(&thread, &attributes, use_little, path) == 0 && pthread_join(thread, &wrong) == 0 && !wrong);
    pthread_attr_destroy(&attributes);
    unlink(path);
    rmdir(folder);
}
#endif

void test_memory(void) {
    test_no_path();
    test_structures();
#ifndef __SANITIZE_ADDRESS__
    test_paths();
    test_last_path();
    test_places();
    test_small_stack();
#endif
}
