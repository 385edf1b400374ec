/* Names and what is asked of them, and which file a number is. */
#include <dirent.h>
#include <errno.h>
#include <fcntl.h>
#include <glob.h>
#include <limits.h>
#include <stdio.h>
#include <stdlib.h>
#include <string.h>
#include <sys/ioctl.h>
#include <sys/resource.h>
#include <sys/stat.h>
#include <sys/sysmacros.h>
#include <sys/xattr.h>
#include <unistd.h>

#include "check.h"

static bool is_chip(const struct stat *status) {
    return S_ISCHR(status->st_mode) && status->st_rdev == makedev(254, 0);
}

static void test_status(void) {
    struct stat status;
    int chip = open_chip(0);
    test("the status of a chip is that of a device");
    CHECK(stat("/dev/gpiochip0", &status) == 0 && is_chip(&status));
    CHECK(lstat("/dev/gpiochip0", &status) == 0 && is_chip(&status));
    CHECK(stat("//dev/./gpiochip0", &status) == 0 && is_chip(&status));
    CHECK(fstat(chip, &status) == 0 && is_chip(&status));
    CHECK(access("/dev/gpiochip0", R_OK | W_OK) == 0);
    CHECK_ERROR(stat("/dev/gpiochip7", &status), ENOENT);
    CHECK_ERROR(open("/dev/gpiochip7", O_RDWR), ENOENT);
    CHECK_ERROR(open("/dev/gpiochip07", O_RDWR), ENOENT);
    CHECK(lgetxattr("/dev/gpiochip0", "system.posix_acl_access", NULL, 0) >= 0 || errno != ENOENT);
    CHECK(stat("/dev/null", &status) == 0 && status.st_rdev == makedev(1, 3));
    close(chip);
}

/* Whether a folder has an entry of that name and, where it is a chip's, of the kind of a device. */
static bool folder_has(DIR *folder, const char *name) {
    struct dirent *entry;
    bool has = false;
    while (folder && (entry = readdir(folder)))
        has = has || (strcmp(entry->d_name, name) == 0 && (*name != 'g' || entry->d_type == DT_CHR));
    return has;
}

static void test_folders(void) {
    struct gpiochip_info info;
    DIR *folder = opendir("/dev");
    test("/dev lists the chips, and what else is there");
    CHECK(folder_has(folder, "gpiochip0"));
    rewinddir(folder);
    CHECK(folder_has(folder, "null"));
    int chip = openat(dirfd(folder), "gpiochip0", O_RDWR);
    CHECK(chip >= 0 && ioctl(chip, GPIO_GET_CHIPINFO_IOCTL, &info) == 0 && strcmp(info.label, "demo") == 0);
    close(chip);
    closedir(folder);
    glob_t found;
    CHECK(glob("/dev/gpiochip*", 0, NULL, &found) == 0 && found.gl_pathc == 2);
    globfree(&found);
}

static void test_working_folder(void) {
    struct stat status;
    glob_t found;
    int before = open(".", O_RDONLY | O_DIRECTORY);
    test("chips are found from /dev as the working directory");
    CHECK(before >= 0 && chdir("/dev") == 0);
    CHECK(glob("gpiochip*", 0, NULL, &found) == 0 && found.gl_pathc == 2);
    globfree(&found);
    CHECK(access("gpiochip0", R_OK | W_OK) == 0 && stat("gpiochip0", &status) == 0 && is_chip(&status));
    CHECK(fchdir(before) == 0);
    close(before);
}

static void test_sysfs(void) {
    char text[PATH_MAX] = "", path[PATH_MAX];
    FILE *file = fopen("/sys/bus/gpio/devices/gpiochip0/dev", "r");
    test("/sys has the chips' device numbers");
    CHECK(file && fgets(text, sizeof text, file) && strcmp(text, "254:0\n") == 0);
    if (file)
        fclose(file);
    CHECK(realpath("/sys/dev/char/254:0/subsystem", path) && strcmp(path, "/sys/bus/gpio") == 0);
    CHECK(realpath("/dev/gpiochip0", path) && strcmp(path, "/dev/gpiochip0") == 0);
}

static void test_links(void) {
    struct stat status;
    char folder[] = "/tmp/gpioserve-test.XXXXXX", path[PATH_MAX], real[PATH_MAX];
    test("a link to a chip opens it");
    CHECK(mkdtemp(folder) != NULL);
    snprintf(path, sizeof path, "%s/relay-board", folder);
    CHECK(symlink("/dev/gpiochip0", path) == 0);
    int chip = open(path, O_RDWR);
    CHECK(chip >= 0);
    CHECK(stat(path, &status) == 0 && is_chip(&status));
    CHECK(lstat(path, &status) == 0 && S_ISLNK(status.st_mode));
    CHECK(realpath(path, real) && strcmp(real, "/dev/gpiochip0") == 0);
    close(chip);
    unlink(path);
    rmdir(folder);
}

static void test_flags(void) {
    int chip = open("/dev/gpiochip0", O_RDWR | O_NONBLOCK);
    test("flags of open are those of the file");
    CHECK(fcntl(chip, F_GETFL) & O_NONBLOCK && !(fcntl(chip, F_GETFD) & FD_CLOEXEC));
    close(chip);
    chip = open_chip(0);
    CHECK(!(fcntl(chip, F_GETFL) & O_NONBLOCK) && fcntl(chip, F_GETFD) & FD_CLOEXEC);
    close(chip);
}

static void test_info(void) {
    struct gpiochip_info info;
    struct gpio_v2_line_info line = {.offset = 3};
    int chip = open_chip(0);
    test("a chip tells its name, and a line that it is free");
    CHECK(ioctl(chip, GPIO_GET_CHIPINFO_IOCTL, &info) == 0 && info.lines == 8 && strcmp(info.name, "gpiochip0") == 0);
    CHECK(ioctl(chip, GPIO_V2_GET_LINEINFO_IOCTL, &line) == 0 && line.flags == GPIO_V2_LINE_FLAG_INPUT);
    close(chip);
    chip = open_chip(1);
    CHECK(ioctl(chip, GPIO_V2_GET_LINEINFO_IOCTL, &line) == 0 && strcmp(line.name, "BUTTON") == 0);
    close(chip);
}

static void test_refusals(void) {
    struct gpio_v2_line_info line = {.offset = 99};
    int chip = open_chip(0), null = open("/dev/null", O_RDWR), ends[2];
    test("commands are refused as the kernel refuses them");
    CHECK_ERROR(ioctl(chip, GPIO_V2_GET_LINEINFO_IOCTL, &line), EINVAL);
    CHECK_ERROR(ioctl(chip, GPIO_V2_LINE_GET_VALUES_IOCTL, &line), EINVAL);
    CHECK_ERROR(ioctl(chip, _IO(0xb4, 0x70)), EINVAL);
    CHECK_ERROR(ioctl(chip, GPIO_V2_GET_LINE_IOCTL, NULL), EFAULT);
    CHECK_ERROR(ioctl(chip, GPIO_GET_CHIPINFO_IOCTL, (void *)16), EFAULT);
    CHECK_ERROR(ioctl(null, GPIO_GET_CHIPINFO_IOCTL, &line), ENOTTY);
    CHECK_ERROR(ioctl(-1, GPIO_GET_CHIPINFO_IOCTL, &line), EBADF);
    CHECK(pipe(ends) == 0);
    CHECK_ERROR(ioctl(ends[0], GPIO_GET_CHIPINFO_IOCTL, &line), ENOTTY);
    CHECK(write(ends[1], "a", 1) == 1 && read(ends[0], &line, 5) == 1);
    close(ends[0]);
    close(ends[1]);
    close(null);
    close(chip);
}

/* Asks for a line by each command that makes a file, where the table of files is full. */
static int ask_without_number(int chip) {
    const struct rlimit few = {64, 64};
    struct gpiochip_info info;
    struct gpio_v2_line_request lines = {
        .offsets = {6}, .num_lines = 1, .config.flags = GPIO_V2_LINE_FLAG_INPUT, .fd = 4711};
    struct gpiohandle_request handle = {.lineoffsets = {6}, .lines = 1, .flags = GPIOHANDLE_REQUEST_INPUT, .fd = 4711};
    struct gpioevent_request event = {.lineoffset = 6, .handleflags = GPIOHANDLE_REQUEST_INPUT, .fd = 4711};
    event.eventflags = GPIOEVENT_REQUEST_BOTH_EDGES;
    if (setrlimit(RLIMIT_NOFILE, &few) || ioctl(chip, GPIO_GET_CHIPINFO_IOCTL, &info))
        return 1;
    while (dup(chip) >= 0)
        continue;
    const bool refused = ioctl(chip, GPIO_V2_GET_LINE_IOCTL, &lines) == -1 && errno == EMFILE &&
                         ioctl(chip, GPIO_GET_LINEHANDLE_IOCTL, &handle) == -1 && errno == EMFILE &&
                         ioctl(chip, GPIO_GET_LINEEVENT_IOCTL, &event) == -1 && errno == EMFILE && open_chip(0) == -1 &&
                         errno == EMFILE;
    return !(refused && lines.fd == 4711 && handle.fd == 4711 && event.fd == 4711);
}

static void test_full_table(void) {
    int chip = open_chip(0);
    test("a request for which a program has no number left is EMFILE, and takes no line");
    CHECK(end_of(run_child(ask_without_number, chip)) == 0);
    int held = request(6, GPIO_V2_LINE_FLAG_INPUT);
    CHECK(held >= 0);
    close(held);
    close(chip);
}

void test_files(void) {
    test_status();
    test_folders();
    test_working_folder();
    test_sysfs();
    test_links();
    test_flags();
    test_info();
    test_refusals();
    test_full_table();
}
