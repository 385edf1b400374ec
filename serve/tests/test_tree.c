/* gpio-sim's file system: what may be done in it, and with which error the rest is refused. The errors are those of
 * drivers/gpio/gpio-sim.c, lib/kstrtox.c, fs/configfs and fs/sysfs in Linux 6.1. */
#include <dirent.h>
#include <errno.h>
#include <fcntl.h>
#include <limits.h>
#include <stdio.h>
#include <stdlib.h>
#include <string.h>
#include <sys/ioctl.h>
#include <sys/stat.h>
#include <unistd.h>

#include "check.h"

#define CONFIG "/sys/kernel/config/gpio-sim"
#define PLATFORM "/sys/devices/platform"

/* Writes a value by one call: 0 or the error number. */
static int write_value(const char *path, const char *value) {
    int file = open(path, O_WRONLY | O_CLOEXEC);
    if (file < 0)
        return errno;
    int error = write(file, value, strlen(value)) == (ssize_t)strlen(value) ? 0 : errno;
    close(file);
    return error;
}

/* Reads an attribute: 0 or the error number. */
static int read_value(const char *path, char *text, size_t size) {
    int file = open(path, O_RDONLY | O_CLOEXEC);
    if (file < 0)
        return errno;
    ssize_t length = read(file, text, size - 1);
    int error = length < 0 ? errno : 0;
    text[length < 0 ? 0 : length] = 0;
    close(file);
    return error;
}

static bool holds(const char *path, const char *expected) {
    char text[256];
    int error = read_value(path, text, sizeof text);
    if (error || strcmp(text, expected) != 0)
        printf("  %s: %s, expected %s", path, error ? strerror(error) : text, expected);
    return error == 0 && strcmp(text, expected) == 0;
}

static int compare(const void *left, const void *right) {
    return strcmp(*(char *const *)left, *(char *const *)right);
}

/* Whether a folder has these names alone, which stand in order with a blank behind each. */
static bool lists(const char *path, const char *expected) {
    char text[512] = "", *names[32];
    size_t count = 0;
    DIR *folder = opendir(path);
    struct dirent *entry;
    while (folder && (entry = readdir(folder)) && count < 32)
        if (entry->d_name[0] != '.')
            names[count++] = strdup(entry->d_name);
    if (folder)
        closedir(folder);
    qsort(names, count, sizeof *names, compare);
    for (size_t i = 0; i < count; i++) {
        snprintf(text + strlen(text), sizeof text - strlen(text), "%s ", names[i]);
        free(names[i]);
    }
    if (strcmp(text, expected) != 0)
        printf("  %s has: %s, expected %s\n", path, text, expected);
    return folder && strcmp(text, expected) == 0;
}

/* What is done to a path below the folder of all devices, and how it ends. */
enum deed { MAKE, REMOVE, WRITE, HOLDS, LISTS };

struct step {
    enum deed deed;
    const char *path;
    const char *text; /* that is written, or expected */
    int error;
};

static int do_step(const struct step *step, const char *path) {
    switch (step->deed) {
    case MAKE:
        return mkdir(path, 0755) == 0 ? 0 : errno;
    case REMOVE:
        return rmdir(path) == 0 ? 0 : errno;
    case WRITE:
        return write_value(path, step->text);
    case HOLDS:
        return holds(path, step->text) ? 0 : EINVAL;
    default:
        return lists(path, step->text) ? 0 : EINVAL;
    }
}

static void run_steps(const struct step *steps, size_t count) {
    for (size_t i = 0; i < count; i++) {
        char path[256];
        snprintf(path, sizeof path, CONFIG "/%s", steps[i].path);
        int error = do_step(&steps[i], path);
        if (error != steps[i].error)
            printf("  %s %s: %s, expected %s\n", steps[i].path, steps[i].text ? steps[i].text : "", strerror(error),
                strerror(steps[i].error));
        CHECK(error == steps[i].error);
    }
}

/* Makes a folder the working directory. Where the kernel notifies of calls, a folder of the file system can't become it
 * by a name, but as an open folder. */
static bool enter(const char *path) {
    if (!is_notified)
        return chdir(path) == 0;
    int folder = open(path, O_RDONLY | O_DIRECTORY | O_CLOEXEC);
    bool entered = folder >= 0 && fchdir(folder) == 0;
    if (folder >= 0)
        close(folder);
    return entered;
}

#define RUN(steps) run_steps(steps, sizeof steps / sizeof *steps)

static const struct step folder_steps[] = {
    {LISTS, "", "board ", 0},
    {MAKE, "sim", NULL, 0},
    {MAKE, "sim", NULL, EEXIST},
    {LISTS, "", "board sim ", 0},
    {LISTS, "sim", "dev_name live ", 0},
    {MAKE, "none/bank", NULL, ENOENT},
    {MAKE, "sim/live", NULL, EEXIST},
    {MAKE, "sim/live/bank", NULL, ENOTDIR},
    {MAKE, "sim/a bank: with any name", NULL, 0},
    {REMOVE, "sim/a bank: with any name", NULL, 0},
    {MAKE, "sim/bank", NULL, 0},
    {LISTS, "sim", "bank dev_name live ", 0},
    {LISTS, "sim/bank", "chip_name label num_lines ", 0},
    {MAKE, "sim/bank/line", NULL, EINVAL},
    {MAKE, "sim/bank/linex", NULL, EINVAL},
    {MAKE, "sim/bank/line-1", NULL, EINVAL},
    {MAKE, "sim/bank/line1x", NULL, EINVAL},
    {MAKE, "sim/bank/other", NULL, EINVAL},
    {MAKE, "sim/bank/line3", NULL, 0},
    {MAKE, "sim/bank/line3", NULL, EEXIST},
    {LISTS, "sim/bank", "chip_name label line3 num_lines ", 0},
    {LISTS, "sim/bank/line3", "name ", 0},
    {MAKE, "sim/bank/line3/other", NULL, EINVAL},
    {MAKE, "sim/bank/line3/hog", NULL, 0},
    {LISTS, "sim/bank/line3", "hog name ", 0},
    {LISTS, "sim/bank/line3/hog", "direction name ", 0},
    {MAKE, "sim/bank/line3/hog/folder", NULL, EPERM},
    {REMOVE, "sim", NULL, ENOTEMPTY},
    {REMOVE, "sim/bank", NULL, ENOTEMPTY},
    {REMOVE, "sim/bank/line3", NULL, ENOTEMPTY},
    {REMOVE, "sim/bank/label", NULL, ENOTDIR},
    {REMOVE, "none", NULL, ENOENT},
    {REMOVE, "sim/bank/line3/hog", NULL, 0},
    {LISTS, "sim/bank/line3", "name ", 0},
    {REMOVE, "sim/bank/line3", NULL, 0},
    {LISTS, "sim/bank", "chip_name label num_lines ", 0},
    {REMOVE, "sim/bank", NULL, 0},
    {REMOVE, "sim", NULL, 0},
    {LISTS, "", "board ", 0},
};

static void test_folders(void) {
    test("folders of configfs are made, listed and removed");
    RUN(folder_steps);
    CHECK_ERROR(rmdir("/sys/kernel/config/gpio-sim"), EPERM);
    CHECK_ERROR(mkdir("/sys/devices/platform/gpio-sim.0/new", 0755), EPERM);
}

static const struct step value_steps[] = {
    {MAKE, "sim", NULL, 0},
    {MAKE, "sim/bank", NULL, 0},
    {HOLDS, "sim/bank/num_lines", "1\n", 0},
    {WRITE, "sim/bank/num_lines", "0", EINVAL},
    {WRITE, "sim/bank/num_lines", "many", EINVAL},
    {WRITE, "sim/bank/num_lines", " 4", EINVAL},
    {WRITE, "sim/bank/num_lines", "4 ", EINVAL},
    {WRITE, "sim/bank/num_lines", "-1", EINVAL},
    {WRITE, "sim/bank/num_lines", "08", EINVAL},
    {WRITE, "sim/bank/num_lines", "4294967296", ERANGE},
    {WRITE, "sim/bank/num_lines", "99999999999999999999999", ERANGE},
    {HOLDS, "sim/bank/num_lines", "1\n", 0},
    {WRITE, "sim/bank/num_lines", "0x10\n", 0},
    {HOLDS, "sim/bank/num_lines", "16\n", 0},
    {WRITE, "sim/bank/num_lines", "+010", 0},
    {HOLDS, "sim/bank/num_lines", "8\n", 0},
    {WRITE, "sim/bank/num_lines", "2147483648", 0},
    {HOLDS, "sim/bank/num_lines", "2147483648\n", 0},
    {WRITE, "sim/live", "1", ENXIO},
    {WRITE, "sim/bank/num_lines", "4\n", 0},
    {HOLDS, "sim/bank/num_lines", "4\n", 0},
    {HOLDS, "sim/bank/label", "\n", 0},
    {WRITE, "sim/bank/label", "\n", 0},
    {WRITE, "sim/bank/label", " \tEBUSY \n", 0},
    {HOLDS, "sim/bank/label", "EBUSY\n", 0},
    {WRITE, "sim/bank/chip_name", "gpiochip7", EACCES},
    {WRITE, "sim/dev_name", "gpio-sim.7", EACCES},
    {HOLDS, "sim/bank/chip_name", "none\n", 0},
    {MAKE, "sim/bank/line2", NULL, 0},
    {WRITE, "sim/bank/line2/name", "RELAY", 0},
    {HOLDS, "sim/bank/line2/name", "RELAY\n", 0},
    {MAKE, "sim/bank/line2/hog", NULL, 0},
    {HOLDS, "sim/bank/line2/hog/direction", "input\n", 0},
    {WRITE, "sim/bank/line2/hog/direction", "output", EINVAL},
    {WRITE, "sim/bank/line2/hog/direction", " output-high\n", 0},
    {HOLDS, "sim/bank/line2/hog/direction", "output-high\n", 0},
    {WRITE, "sim/bank/line2/hog/name", "keeper", 0},
    {HOLDS, "sim/bank/line2/hog/name", "keeper\n", 0},
    {WRITE, "sim/bank", "1", EISDIR},
    {WRITE, "none/live", "1", ENOENT},
};

static void test_values_of_config(void) {
    test("values of configfs are read as the driver reads them");
    RUN(value_steps);
}

static const struct step live_steps[] = {
    {HOLDS, "sim/live", "0\n", 0},
    {WRITE, "sim/live", "maybe", EINVAL},
    {WRITE, "sim/live", "o", EINVAL},
    {WRITE, "sim/live", "0", EPERM},
    {WRITE, "sim/live", "on\n", 0},
    {HOLDS, "sim/live", "1\n", 0},
    {WRITE, "sim/live", "Y", EPERM},
    {HOLDS, "sim/bank/chip_name", "gpiochip2\n", 0},
    {WRITE, "sim/bank/num_lines", "8", EBUSY},
    {WRITE, "sim/bank/num_lines", "1000", EBUSY},
    {WRITE, "sim/bank/label", "other", EBUSY},
    {WRITE, "sim/bank/label", "\n", EBUSY},
    {WRITE, "sim/bank/line2/name", "other", EBUSY},
    {WRITE, "sim/bank/line2/hog/name", "other", EBUSY},
    {WRITE, "sim/bank/line2/hog/direction", "input", EBUSY},
    {MAKE, "sim/second", NULL, EBUSY},
    {MAKE, "sim/bank/line3", NULL, EBUSY},
    {MAKE, "empty", NULL, 0},
    {WRITE, "empty/live", "1", ENODATA},
    {MAKE, "twins", NULL, 0},
    {MAKE, "twins/one", NULL, 0},
    {MAKE, "twins/two", NULL, 0},
    {WRITE, "twins/one/label", "same", 0},
    {WRITE, "twins/two/label", "same", 0},
    {WRITE, "twins/live", "1", EINVAL},
    {HOLDS, "twins/live", "0\n", 0},
    {WRITE, "twins/two/label", "another", 0},
    {WRITE, "twins/live", "t", 0},
    {HOLDS, "twins/one/chip_name", "gpiochip3\n", 0},
    {HOLDS, "twins/two/chip_name", "gpiochip4\n", 0},
    {WRITE, "twins/live", "OFF", 0},
    {HOLDS, "twins/two/chip_name", "none\n", 0},
    {REMOVE, "twins/one", NULL, 0},
    {REMOVE, "twins/two", NULL, 0},
    {REMOVE, "twins", NULL, 0},
    {REMOVE, "empty", NULL, 0},
};

static void test_live(void) {
    test("a device goes live, and is then left as it is");
    RUN(live_steps);
}

/* The device of the tests before is live: chip 2, with four lines. */
static void test_sysfs(void) {
    static const char chip[] = PLATFORM "/gpio-sim.1/gpiochip2";
    char path[128], text[64];
    test("pulls and values of lines stand in sysfs");
    CHECK(holds(CONFIG "/sim/dev_name", "gpio-sim.1\n"));
    CHECK(lists(PLATFORM "/gpio-sim.1", "gpiochip2 "));
    CHECK(lists(chip, "dev sim_gpio0 sim_gpio1 sim_gpio2 sim_gpio3 subsystem uevent "));
    snprintf(path, sizeof path, "%s/sim_gpio1", chip);
    CHECK(lists(path, "pull value "));
    snprintf(path, sizeof path, "%s/sim_gpio1/pull", chip);
    CHECK(holds(path, "pull-down\n"));
    CHECK(write_value(path, "pull-up\n") == 0 && holds(path, "pull-up\n"));
    CHECK(write_value(path, "pull") == EINVAL && write_value(path, " pull-down") == EINVAL);
    CHECK(write_value(path, "pull-down\n\n") == EINVAL && holds(path, "pull-up\n"));
    snprintf(path, sizeof path, "%s/sim_gpio1/value", chip);
    CHECK(holds(path, "1\n") && write_value(path, "0") == EPERM && holds(path, "1\n"));
    snprintf(path, sizeof path, "%s/sim_gpio2/value", chip);
    CHECK(holds(path, "1\n")); /* (it is hogged as an output) */
    snprintf(path, sizeof path, "%s/sim_gpio4/value", chip);
    CHECK(read_value(path, text, sizeof text) == ENOENT);
    snprintf(path, sizeof path, "%s/dev", chip);
    CHECK(holds(path, "254:2\n") && write_value(path, "1:1") == EACCES);
    CHECK(realpath("/sys/bus/gpio/devices/gpiochip2", path) && strcmp(path, chip) == 0);
    CHECK(realpath("/sys/dev/char/254:2/subsystem", path) && strcmp(path, "/sys/bus/gpio") == 0);
    CHECK(holds("/sys/module/gpio_sim/initstate", "live\n"));
}

/* Files are neither made nor removed, and a file that is open is read from its start anew. */
static void test_files_of_tree(void) {
    char text[8];
    test("no file is made, removed or moved in configfs");
    CHECK_ERROR(open(CONFIG "/sim/new", O_WRONLY | O_CREAT | O_CLOEXEC, 0644), EACCES);
    CHECK_ERROR(unlink(CONFIG "/sim/live"), EPERM);
    CHECK(!enter(CONFIG "/sim/live") && errno == ENOTDIR);
    CHECK(truncate(CONFIG "/sim/live", 0) == 0 && holds(CONFIG "/sim/live", "1\n"));
    test("an attribute that stays open is read anew from its start");
    int file = open(PLATFORM "/gpio-sim.1/gpiochip2/sim_gpio0/value", O_RDONLY | O_CLOEXEC);
    CHECK(read(file, text, 1) == 1 && text[0] == '0');
    CHECK(say("write gpiochip2/sim_gpio0/pull pull-up"));
    CHECK(read(file, text, sizeof text) == 1 && text[0] == '\n' && read(file, text, sizeof text) == 0);
    CHECK(pread(file, text, sizeof text, 0) == 2 && text[0] == '1');
    close(file);
}

static void test_of_others(void) {
    test("devices of the board and of gpiosay are in the file system");
    CHECK(lists(CONFIG "/board/soc", "chip_name label line3 line4 num_lines "));
    CHECK(holds(CONFIG "/board/soc/line3/name", "BUTTON\n") && holds(CONFIG "/board/live", "1\n"));
    CHECK(holds(CONFIG "/board/dev_name", "gpio-sim.0\n"));
    CHECK(write_value(PLATFORM "/gpio-sim.0/gpiochip1/sim_gpio3/pull", "pull-up") == 0);
    CHECK(say("read gpiochip1/sim_gpio3/value") && strcmp(said(), "1\n") == 0);
    CHECK(say("mkdir gpio-sim.2") && say("mkdir gpio-sim.2/tray") && say("write gpio-sim.2/tray/num_lines 3"));
    CHECK(say("mkdir gpio-sim.2/tray/line1") && say("mkdir gpio-sim.2/tray/line1/hog"));
    CHECK(lists(CONFIG, "board gpio-sim.2 sim ") && lists(CONFIG "/gpio-sim.2/tray/line1", "hog name "));
    CHECK(say("rmdir gpio-sim.2/tray/line1/hog") && lists(CONFIG "/gpio-sim.2/tray/line1", "name "));
    CHECK(mkdir(CONFIG "/later", 0755) == 0 && holds(CONFIG "/later/dev_name", "gpio-sim.3\n"));
    CHECK(say("write gpio-sim.2/live 1") && holds(CONFIG "/gpio-sim.2/live", "1\n"));
    CHECK(holds(CONFIG "/gpio-sim.2/tray/chip_name", "gpiochip5\n"));
    CHECK(lists(PLATFORM "/gpio-sim.2/gpiochip5", "dev sim_gpio0 sim_gpio1 sim_gpio2 subsystem uevent "));
    CHECK(say("write gpio-sim.2/live 0") && holds(CONFIG "/gpio-sim.2/tray/chip_name", "none\n"));
    CHECK(say("rmdir gpio-sim.2/tray/line1") && say("rmdir gpio-sim.2/tray") && say("rmdir gpio-sim.2"));
    CHECK(rmdir(CONFIG "/later") == 0 && lists(CONFIG, "board sim "));
    test("a chip that `probe` made has pulls and values too");
    CHECK(write_value("/sys/bus/gpio/devices/gpiochip0/sim_gpio7/pull", "pull-up") == 0);
    CHECK(holds("/sys/devices/gpioserve/gpiochip0/sim_gpio7/value", "1\n"));
}

/* A device goes while a program has its folder and a file of it open. */
static void test_going(void) {
    char text[8], folder[PATH_MAX];
    test("a device that goes takes its folders along");
    DIR *chip = opendir(PLATFORM "/gpio-sim.1/gpiochip2");
    int file = open(PLATFORM "/gpio-sim.1/gpiochip2/sim_gpio0/value", O_RDONLY | O_CLOEXEC);
    CHECK(chip && file >= 0 && enter(CONFIG "/sim/bank"));
    CHECK(is_notified || (getcwd(folder, sizeof folder) && strcmp(folder, CONFIG "/sim/bank") == 0));
    CHECK(holds("chip_name", "gpiochip2\n") && holds("../live", "1\n"));
    CHECK(write_value("../live", "n") == 0 && holds("chip_name", "none\n"));
    CHECK_ERROR(read(file, text, sizeof text), ENOENT);
    CHECK_ERROR(openat(dirfd(chip), "sim_gpio0/value", O_RDONLY | O_CLOEXEC), ENOENT);
    CHECK_ERROR(access(PLATFORM "/gpio-sim.1", F_OK), ENOENT);
    CHECK_ERROR(access("/sys/bus/gpio/devices/gpiochip2", F_OK), ENOENT);
    closedir(chip);
    close(file);
    CHECK(chdir("/") == 0);
    CHECK(rmdir(CONFIG "/sim/bank/line2/hog") == 0 && rmdir(CONFIG "/sim/bank/line2") == 0);
    CHECK(rmdir(CONFIG "/sim/bank") == 0 && rmdir(CONFIG "/sim") == 0 && lists(CONFIG, "board "));
}

/* From the system's own folders names lead on into the file system. */
static void test_from_sys(void) {
    test("names are found from the working directory /sys/kernel");
    CHECK(chdir("/sys/kernel") == 0 && mkdir("config/gpio-sim/walk", 0755) == 0);
    CHECK(enter("config") && enter("gpio-sim") && holds("walk/live", "0\n"));
    CHECK(chdir("/") == 0 && rmdir(CONFIG "/walk") == 0);
}

/* The name of a line of that test: between two `x`, 29 bytes that follow each other, but for the line end. */
static void name_line(char name[32], unsigned line) {
    char *next = name;
    unsigned first = 1 + 29 * line;
    *next++ = 'x';
    for (unsigned byte = first; byte < first + 29 && byte < 256; byte++)
        if (byte != '\n')
            *next++ = (char)byte;
    *next++ = 'x';
    *next = 0;
}

static void write_names(void) {
    char path[128], name[32], expected[64];
    for (unsigned line = 0; line < 9; line++) {
        snprintf(path, sizeof path, CONFIG "/names/bank/line%u", line);
        CHECK(mkdir(path, 0755) == 0);
        strcat(path, "/name");
        name_line(name, line);
        snprintf(expected, sizeof expected, "%s\n", name);
        CHECK(write_value(path, name) == 0 && holds(path, expected));
    }
}

/* The names as a program sees them that asks for lines by v2. */
static void read_names(void) {
    char number[32] = "", path[64], name[32];
    CHECK(read_value(CONFIG "/names/bank/chip_name", number, sizeof number) == 0);
    snprintf(path, sizeof path, "/dev/%.*s", (int)strcspn(number, "\n"), number);
    int chip = open(path, O_RDWR | O_CLOEXEC);
    struct gpiochip_info chip_info;
    CHECK(ioctl(chip, GPIO_GET_CHIPINFO_IOCTL, &chip_info) == 0 && strcmp(chip_info.label, "a label [:-]") == 0);
    for (unsigned line = 0; line < 9; line++) {
        struct gpio_v2_line_info info = {.offset = line};
        name_line(name, line);
        CHECK(ioctl(chip, GPIO_V2_GET_LINEINFO_IOCTL, &info) == 0 && strcmp(info.name, name) == 0);
    }
    close(chip);
}

static void test_names_of_any_bytes(void) {
    static const char longest[] = "a name of thirty-one bytes, so.";
    test("labels and names have any bytes but 0 and line ends");
    CHECK(mkdir(CONFIG "/names", 0755) == 0 && mkdir(CONFIG "/names/bank", 0755) == 0);
    CHECK(write_value(CONFIG "/names/bank/num_lines", "9") == 0);
    CHECK(write_value(CONFIG "/names/bank/label", "a label [:-]") == 0);
    CHECK(holds(CONFIG "/names/bank/label", "a label [:-]\n"));
    write_names();
    CHECK(write_value(CONFIG "/names/live", "1") == 0);
    read_names();
    CHECK(write_value(CONFIG "/names/live", "0") == 0);
    CHECK(write_value(CONFIG "/names/bank/line0/name", "two\nlines") == EINVAL);
    CHECK(write_value(CONFIG "/names/bank/line0/name", "a name of thirty-two bytes, so ..") == EINVAL);
    CHECK(sizeof longest == 32 && write_value(CONFIG "/names/bank/line0/name", longest) == 0);
}

/* The device of the test before, as the served program calls it. */
static void test_names_said(void) {
    char device[32] = "";
    test("gpiosay says a name in pairs, and none with a line end");
    CHECK(read_value(CONFIG "/names/dev_name", device, sizeof device) == 0);
    device[strcspn(device, "\n")] = 0;
    CHECK(say("write %s/node0/line1/name \\61206e616d65", device));
    CHECK(holds(CONFIG "/names/bank/line1/name", "a name\n"));
    CHECK(say("write %s/live \\31", device) && holds(CONFIG "/names/live", "1\n"));
    CHECK(write_value(CONFIG "/names/bank/num_lines", "1000") == EBUSY);
    CHECK(say("write %s/live \\30", device) && write_value(CONFIG "/names/bank/label", "as before") == 0);
    CHECK(!say("write %s/node0/line1/name \\610a62", device) && !say("probe \\610A62 1"));
}

static int read_often(int line) {
    char path[128], expected[8];
    snprintf(path, sizeof path, "/sys/bus/gpio/devices/gpiochip0/sim_gpio%d/value", line);
    snprintf(expected, sizeof expected, "%d\n", line % 2);
    for (int i = 0; i < 10; i++)
        if (!holds(path, expected))
            return 1;
    return 0;
}

static void test_crowd_of_readers(void) {
    pid_t readers[200];
    test("two hundred programs read at once");
    for (unsigned line = 0; line < 8; line++)
        CHECK(pull(line, line % 2));
    for (int i = 0; i < 200; i++)
        readers[i] = run_child(read_often, i % 8);
    for (int i = 0; i < 200; i++)
        CHECK(end_of(readers[i]) == 0);
}

void test_tree(void) {
    test_folders();
    test_values_of_config();
    test_live();
    test_sysfs();
    test_files_of_tree();
    test_of_others();
    test_going();
    test_from_sys();
    test_names_of_any_bytes();
    test_names_said();
    test_crowd_of_readers();
}
