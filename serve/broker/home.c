#include "home.h"

#include <dirent.h>
#include <errno.h>
#include <fcntl.h>
#include <ftw.h>
#include <limits.h>
#include <stdarg.h>
#include <stdio.h>
#include <stdlib.h>
#include <string.h>
#include <sys/stat.h>
#include <unistd.h>

#include "report.h"

#define ROOT "root"
#define DEVICES ROOT "/sys/devices/gpioserve"

/* The path of a name in the folder. False where it is too long. */
__attribute__((format(printf, 3, 4))) static bool path_of(
    const struct home *home, char path[PATH_MAX], const char *form, ...) {
    va_list values;
    int front = snprintf(path, PATH_MAX, "%s/", home->path);
    va_start(values, form);
    int rest = vsnprintf(path + front, PATH_MAX - (size_t)front, form, values);
    va_end(values);
    return rest >= 0 && front + rest < PATH_MAX;
}

static bool make_folder(const struct home *home, const char *name) {
    char path[PATH_MAX];
    return path_of(home, path, "%s", name) && (mkdir(path, 0755) == 0 || errno == EEXIST);
}

static bool write_file(const char *path, const char *text) {
    int file = open(path, O_WRONLY | O_CREAT | O_TRUNC | O_CLOEXEC, 0644);
    if (file < 0)
        return false;
    size_t length = strlen(text);
    bool good = write(file, text, length) == (ssize_t)length;
    return close(file) == 0 && good;
}

/* Links to all that /dev has, except chips. */
static bool link_devices(const struct home *home) {
    char path[PATH_MAX], to[PATH_MAX];
    struct dirent *entry;
    DIR *folder = opendir("/dev");
    bool good = folder != NULL;
    while (good && (entry = readdir(folder))) {
        if (entry->d_name[0] == '.' || strncmp(entry->d_name, "gpiochip", 8) == 0)
            continue;
        snprintf(to, sizeof to, "/dev/%s", entry->d_name);
        good = path_of(home, path, ROOT "/dev/%s", entry->d_name) && symlink(to, path) == 0;
    }
    if (folder)
        closedir(folder);
    return good;
}

static bool make_root(const struct home *home) {
    static const char *const folders[] = {ROOT, ROOT "/dev", ROOT "/sys", ROOT "/sys/bus", ROOT "/sys/bus/gpio",
        ROOT "/sys/bus/gpio/devices", ROOT "/sys/dev", ROOT "/sys/dev/char", ROOT "/sys/devices", DEVICES, "view"};
    for (size_t i = 0; i < sizeof folders / sizeof *folders; i++)
        if (!make_folder(home, folders[i]))
            return false;
    return link_devices(home);
}

static bool is_empty(const char *path) {
    struct dirent *entry;
    DIR *folder = opendir(path);
    bool empty = folder != NULL;
    while (empty && (entry = readdir(folder)))
        empty = strcmp(entry->d_name, ".") == 0 || strcmp(entry->d_name, "..") == 0;
    if (folder)
        closedir(folder);
    return empty;
}

/* Takes the folder that the user named. */
static bool take_named(struct home *home, const char *named) {
    struct stat status;
    char whole[PATH_MAX];
    if (mkdir(named, 0700) && errno != EEXIST) {
        report("the folder %s can't be made: %s", named, strerror(errno));
        return false;
    }
    if (!realpath(named, whole) || stat(whole, &status) || !S_ISDIR(status.st_mode) || status.st_uid != geteuid() ||
        !is_empty(whole) || chmod(whole, 0700)) {
        report("the folder %s has to be empty and your own: name another one", named);
        return false;
    }
    if (strlen(whole) >= sizeof home->path) {
        report("the path of the socket in %s is too long: name a folder with at most %zu bytes", whole,
            sizeof home->path - 1);
        return false;
    }
    strcpy(home->path, whole);
    return true;
}

static bool make_new(struct home *home) {
    const char *base = getenv("TMPDIR");
    if (!base || *base != '/')
        base = "/tmp";
    int length = snprintf(home->path, sizeof home->path, "%s/gpioserve.XXXXXX", base);
    if ((size_t)length >= sizeof home->path) {
        report(
            "the path of the socket would be too long: set TMPDIR to a folder with at most %zu bytes, as TMPDIR=/tmp",
            sizeof home->path - sizeof "/gpioserve.XXXXXX");
        return false;
    }
    if (mkdtemp(home->path))
        return true;
    report("no folder can be made in %s: %s", base, strerror(errno));
    return false;
}

bool home_make(struct home *home, const char *named) {
    memset(home, 0, sizeof *home);
    if (!(named ? take_named(home, named) : make_new(home)))
        return false;
    home->made = true;
    if (make_root(home))
        return true;
    report("the folder %s can't be filled: %s", home->path, strerror(errno));
    return false;
}

/* Makes a link at one name of the folder to another name of it. */
static bool link_name(const struct home *home, const char *at, const char *to) {
    char path[PATH_MAX], target[PATH_MAX];
    return path_of(home, path, "%s", at) && path_of(home, target, "%s", to) &&
           (symlink(target, path) == 0 || errno == EEXIST);
}

/* The names of a chip: its device's folder, and what refers to it. */
struct chip_names {
    char device[64], subsystem[80], bus[64], number[64], node[64];
};

static void names_of(struct chip_names *names, unsigned chip) {
    snprintf(names->device, sizeof names->device, DEVICES "/gpiochip%u", chip);
    snprintf(names->subsystem, sizeof names->subsystem, "%s/subsystem", names->device);
    snprintf(names->bus, sizeof names->bus, ROOT "/sys/bus/gpio/devices/gpiochip%u", chip);
    snprintf(names->number, sizeof names->number, ROOT "/sys/dev/char/%d:%u", WIRE_MAJOR, chip);
    snprintf(names->node, sizeof names->node, ROOT "/dev/gpiochip%u", chip);
}

/* Makes a chip's name in /dev: a device without a number, which any user may make since Linux 5.8, so that it is listed
 * as a device; or an empty file, where the library opens it or no device can be made. */
static bool make_node(const struct home *home, const char *path) {
    return (home->lists_devices && mknod(path, S_IFCHR | 0660, 0) == 0) || write_file(path, "");
}

static bool name_chip(const struct home *home, unsigned chip) {
    char path[PATH_MAX], text[64];
    struct chip_names names;
    names_of(&names, chip);
    snprintf(text, sizeof text, "%d:%u\n", WIRE_MAJOR, chip);
    return make_folder(home, names.device) && path_of(home, path, "%s/dev", names.device) && write_file(path, text) &&
           link_name(home, names.subsystem, ROOT "/sys/bus/gpio") && link_name(home, names.bus, names.device) &&
           link_name(home, names.number, names.device) && path_of(home, path, "%s", names.node) &&
           make_node(home, path);
}

static void forget_chip(const struct home *home, unsigned chip) {
    char path[PATH_MAX];
    struct chip_names names;
    names_of(&names, chip);
    const char *const gone[] = {names.node, names.bus, names.number};
    for (size_t i = 0; i < sizeof gone / sizeof *gone; i++)
        if (path_of(home, path, "%s", gone[i]))
            unlink(path);
}

void home_name_chips(struct home *home, const bool present[WIRE_CHIPS]) {
    for (unsigned chip = 0; chip < WIRE_CHIPS; chip++) {
        if (present[chip] == home->present[chip])
            continue;
        if (!present[chip])
            forget_chip(home, chip);
        else if (!name_chip(home, chip))
            report("gpiochip%u has no name in %s: %s", chip, home->path, strerror(errno));
        home->present[chip] = present[chip];
    }
}

static int remove_one(const char *path, const struct stat *status, int type, struct FTW *place) {
    (void)status;
    (void)type;
    (void)place;
    return remove(path);
}

void home_remove(struct home *home) {
    if (home->made && nftw(home->path, remove_one, 16, FTW_DEPTH | FTW_PHYS))
        report("the folder %s could not be removed: %s", home->path, strerror(errno));
    home->made = false;
}
