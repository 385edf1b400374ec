/* Every spelling of a chip's name, and the folder /dev in every way that programs list it. */
#include <dirent.h>
#include <dlfcn.h>
#include <errno.h>
#include <fcntl.h>
#include <poll.h>
#include <stdio.h>
#include <stdlib.h>
#include <string.h>
#include <sys/ioctl.h>
#include <sys/stat.h>
#include <sys/sysmacros.h>
#include <unistd.h>

#include "check.h"

/* The device number of the chips, as linux/major.h would have it. */
#define CHIP_MAJOR 254

static bool is_demo(int chip) {
    struct gpiochip_info info;
    return chip >= 0 && ioctl(chip, GPIO_GET_CHIPINFO_IOCTL, &info) == 0 && strcmp(info.label, "demo") == 0;
}

/* Checks what each call says of a name of chip 0. */
static void check_name(const char *path) {
    struct stat status;
    struct statx more;
    int chip = open(path, O_RDWR);
    bool good = is_demo(chip) && stat(path, &status) == 0 && status.st_rdev == makedev(CHIP_MAJOR, 0) &&
                statx(AT_FDCWD, path, 0, STATX_BASIC_STATS, &more) == 0 && S_ISCHR(more.stx_mode) &&
                more.stx_rdev_major == CHIP_MAJOR && more.stx_rdev_minor == 0 && access(path, R_OK | W_OK) == 0 &&
                faccessat(AT_FDCWD, path, F_OK, 0) == 0 && eaccess(path, F_OK) == 0;
    if (!good)
        printf("  as %s\n", path);
    CHECK(good);
    close(chip);
}

/* Names that lead to chip 0 out of a folder of the test's own. */
static const struct {
    const char *name, *target;
} links[] = {
    {"absolute", "/dev/gpiochip0"},
    {"relative", "../../dev/gpiochip0"},
    {"second", "relative"},
    {"third", "./second"},
    {"around", "/proc/self/root/dev/gpiochip0"},
    {"folder", "/dev"},
};
#define LINKS (sizeof links / sizeof *links)

static void test_links(void) {
    char folder[] = "/tmp/gpioserve-test.XXXXXX", path[128];
    test("links to chips, to links and to folders, also relative ones");
    CHECK(mkdtemp(folder) != NULL);
    for (size_t i = 0; i < LINKS; i++) {
        snprintf(path, sizeof path, "%s/%s", folder, links[i].name);
        CHECK(symlink(links[i].target, path) == 0);
    }
    for (size_t i = 0; i < LINKS; i++) {
        snprintf(path, sizeof path, "%s/%s%s", folder, links[i].name,
            strcmp(links[i].name, "folder") == 0 ? "/gpiochip0" : "");
        check_name(path);
    }
    snprintf(path, sizeof path, "%s/absolute", folder);
    CHECK_ERROR(open(path, O_RDWR | O_CREAT | O_EXCL, 0600), EEXIST);
    CHECK_ERROR(open(path, O_RDWR | O_NOFOLLOW), ELOOP);
    for (size_t i = 0; i < LINKS; i++) {
        snprintf(path, sizeof path, "%s/%s", folder, links[i].name);
        unlink(path);
    }
    rmdir(folder);
}

static void test_spellings(void) {
    static const char *const paths[] = {"/dev/gpiochip0", "//dev/./gpiochip0", "/dev/../dev/gpiochip0",
        "/proc/self/root/dev/gpiochip0", "/proc/self/cwd/dev/gpiochip0", "dev/gpiochip0", "./dev//gpiochip0",
        "tmp/../dev/gpiochip0"};
    int before = open(".", O_RDONLY | O_DIRECTORY);
    test("a chip is found however its name is spelled");
    CHECK(before >= 0 && chdir("/") == 0);
    for (size_t i = 0; i < sizeof paths / sizeof *paths; i++)
        check_name(paths[i]);
    CHECK_ERROR(open("/tmp/gpiochip0", O_RDWR), ENOENT);
    CHECK_ERROR(open("/dev/../dev/gpiochip7", O_RDWR), ENOENT);
    CHECK(fchdir(before) == 0);
    close(before);
}

/* Whether an open folder lists chip 0, which is a device; the folder is closed. */
static bool lists_chip(DIR *folder) {
    struct dirent *entry;
    bool has = false;
    while (folder && (entry = readdir(folder)))
        has = has || (strcmp(entry->d_name, "gpiochip0") == 0 && entry->d_type == DT_CHR);
    if (folder)
        closedir(folder);
    return has;
}

static int is_chip_entry(const struct dirent *entry) {
    return strcmp(entry->d_name, "gpiochip0") == 0;
}

static int count_scanned(int from, const char *path) {
    struct dirent **entries = NULL;
    int count = scandirat(from, path, &entries, is_chip_entry, alphasort);
    for (int i = 0; i < count; i++)
        free(entries[i]);
    free(entries);
    return count;
}

static void test_listings(void) {
    int root = open("/", O_RDONLY), dev = open("/dev", O_RDONLY);
    test("/dev lists the chips, however it is opened");
    CHECK(lists_chip(opendir("/dev")) && lists_chip(opendir("/dev/../dev/")) &&
          lists_chip(opendir("/proc/self/root/dev")));
    CHECK(lists_chip(fdopendir(open("/dev", O_RDONLY))) && lists_chip(fdopendir(openat(root, "dev", O_RDONLY))));
    CHECK(lists_chip(fdopendir(openat(dev, ".", O_RDONLY | O_DIRECTORY))));
    CHECK(count_scanned(AT_FDCWD, "/dev") == 1 && count_scanned(root, "dev") == 1 && count_scanned(dev, ".") == 1);
    int chip = openat(dev, "gpiochip0", O_RDWR);
    CHECK(is_demo(chip));
    close(chip);
    close(dev);
    close(root);
}

/* What programs call that were built with another C library, or are fortified. */
static void test_other_calls(void) {
    int (*const old_stat)(int, int, const char *, struct stat *, int) =
        (int (*)(int, int, const char *, struct stat *, int))dlsym(RTLD_DEFAULT, "__fxstatat64");
    ssize_t (*const fortified)(int, const char *, char *, size_t, size_t) =
        (ssize_t(*)(int, const char *, char *, size_t, size_t))dlsym(RTLD_DEFAULT, "__readlinkat_chk");
    struct stat status;
    char text[64] = "";
    test("calls of older and of fortified programs");
    CHECK(old_stat && old_stat(1, AT_FDCWD, "/dev/gpiochip0", &status, 0) == 0 && S_ISCHR(status.st_mode));
    CHECK(fortified && fortified(AT_FDCWD, "/sys/bus/gpio/devices/gpiochip0", text, sizeof text, sizeof text) > 0);
    CHECK(strcmp(text, "/sys/devices/gpioserve/gpiochip0") == 0);
}

static int has_flags(int chip) {
    return (fcntl(chip, F_GETFL) & (O_ACCMODE | O_APPEND | O_DIRECT)) != O_RDWR;
}

static void test_flags(void) {
    static const int modes[] = {O_RDONLY, O_WRONLY, O_RDWR};
    const int shown = O_ACCMODE | O_APPEND | O_DIRECT | O_NONBLOCK;
    test("a chip shows the flags that it was opened with");
    for (size_t i = 0; i < sizeof modes / sizeof *modes; i++) {
        int chip = open("/dev/gpiochip0", modes[i] | O_NONBLOCK);
        CHECK((fcntl(chip, F_GETFL) & shown) == (modes[i] | O_NONBLOCK));
        CHECK(fcntl(chip, F_SETFL, 0) == 0 && (fcntl(chip, F_GETFL) & shown) == modes[i]);
        CHECK(fcntl(chip, F_SETFL, O_NONBLOCK) == 0 && (fcntl(chip, F_GETFL) & shown) == (modes[i] | O_NONBLOCK));
        close(chip);
    }
    int chip = open_chip(0), held = request_edges(1), ends[2];
    CHECK(end_of(run_child(has_flags, chip)) == 0);
    CHECK((fcntl(held, F_GETFL) & shown) == O_RDONLY);
    CHECK(pipe(ends) == 0 && fcntl(ends[0], F_SETFL, O_DIRECT) == 0 && (fcntl(ends[0], F_GETFL) & shown) == O_DIRECT);
    close(ends[0]);
    close(ends[1]);
    close(held);
    close(chip);
}

static void test_waiting_bytes(void) {
    int chip = open_chip(0), held = request_edges(1), count = 0;
    test("how many bytes wait is no command of a chip or of a request");
    CHECK(pull(1, true) && polled(held, WAIT_MOST) == POLLIN);
    CHECK_ERROR(ioctl(held, FIONREAD, &count), EINVAL);
    CHECK_ERROR(ioctl(chip, FIONREAD, &count), EINVAL);
    CHECK(pull(1, false));
    close(held);
    close(chip);
}

void test_chip_names(void) {
    test_spellings();
    test_links();
    test_listings();
    if (is_notified) {
        leave_out("calls of older and of fortified programs: they are other functions, but the same system calls");
        leave_out("the flags that a chip was opened with: an open chip shows those of a pipe");
        leave_out("how many bytes wait: the kernel answers this command for a pipe");
        return;
    }
    test_other_calls();
    test_flags();
    test_waiting_bytes();
}
