#include "names.h"

#include <errno.h>
#include <fcntl.h>
#include <string.h>
#include <sys/syscall.h>
#include <unistd.h>

#include "../tree_names.h"
#include "../wire.h"
#include "ask.h"
#include "memory.h"
#include "tree.h"

#define TEXT(number) #number
#define NUMBER(number) TEXT(number)

/* Where names stand in the broker's folder: all, and those below /sys where gpio-sim's file system is shown. */
#define ROOT "/root"
#define VIEW "/view"
/* How the names of chips begin. */
#define CHIP "gpiochip"
/* Links that lead to links are followed so far, as the kernel does. */
#define MOST_LINKS 40

/* Names that stand there, with all below them. In /sys/class/gpio there is nothing: lines of the machine itself would
 * be driven there. */
static const char *const moved[] = {"/sys/bus/gpio", "/sys/devices/gpioserve", "/sys/class/gpio"};
/* How the names of chips by their device numbers begin. */
static const char by_number[] = "/sys/dev/char/" NUMBER(WIRE_MAJOR) ":";

static bool begins(const char *path, const char *front) {
    return strncmp(path, front, strlen(front)) == 0;
}

static const char *last_part(const char *path) {
    const char *last = strrchr(path, '/');
    return last ? last + 1 : path;
}

/* A chip's number at the end of a name: decimal, without leading zeros; -1 where it is none. */
static int number_of(const char *text) {
    int number = 0;
    if (*text == 0 || (*text == '0' && text[1]) || strlen(text) > 2)
        return -1;
    for (; *text; text++) {
        if (*text < '0' || *text > '9')
            return -1;
        number = 10 * number + *text - '0';
    }
    return number < WIRE_CHIPS ? number : -1;
}

/* Adds a text at the end of another one. False where there is no room. */
static bool add(char room[NAMES_ROOM], const char *text) {
    size_t before = strlen(room), length = strlen(text);
    if (before + length >= NAMES_ROOM)
        return false;
    memcpy(room + before, text, length + 1);
    return true;
}

/* Writes the broker's folder and a path. False where there is no room. */
static bool in_home(const char *path, char room[NAMES_ROOM]) {
    const char *folder = begins(path, "/sys") && tree_is_shown() ? VIEW : ROOT;
    room[0] = 0;
    return add(room, ask_home()) && add(room, folder) && add(room, path);
}

void names_node(int chip, char room[NAMES_ROOM]) {
    const char digits[] = {(char)('0' + chip / 10), (char)('0' + chip % 10), 0};
    if (!in_home("/dev/" CHIP, room) || !add(room, chip < 10 ? digits + 1 : digits))
        room[0] = 0;
}

bool names_dev(char room[NAMES_ROOM]) {
    return ask_home() && in_home("/dev", room);
}

/* Copies a path without what says nothing in it: slashes in a row, and `.` as a part. False where there is no room. */
static bool flatten(const char *path, char room[NAMES_ROOM]) {
    size_t length = 0;
    for (const char *at = path; *at; at++) {
        if (*at == '/' && at[1] == '/')
            continue;
        if (*at == '/' && at[1] == '.' && (at[2] == '/' || at[2] == 0)) {
            at++;
            continue;
        }
        if (length == NAMES_ROOM - 1)
            return false;
        room[length++] = *at;
    }
    room[length] = 0;
    return true;
}

static bool is_same(const struct stat *one, const struct stat *other) {
    return one->st_ino == other->st_ino && one->st_dev == other->st_dev;
}

static bool look_at(int from, const char *path, struct stat *status) {
    return syscall(SYS_newfstatat, from, path, status, AT_EMPTY_PATH) == 0;
}

bool names_is_dev(const struct stat *status) {
    struct stat dev;
    int kept = errno;
    bool found = ask_home() && S_ISDIR(status->st_mode) && look_at(AT_FDCWD, "/dev", &dev) && is_same(status, &dev);
    errno = kept;
    return found;
}

/* Whether the first so many bytes of a path are the name of /dev, or of the folder that is listed in its place. */
static bool is_dev(int from, const char *path, size_t length) {
    char room[NAMES_ROOM];
    struct stat folder, listed;
    int kept = errno;
    if (length >= sizeof room)
        return false;
    memcpy(room, path, length);
    room[length] = 0;
    bool found = strcmp(room, "/dev/") == 0;
    if (!found && look_at(from, length > 0 || from != AT_FDCWD ? room : ".", &folder))
        found =
            names_is_dev(&folder) || (names_dev(room) && look_at(AT_FDCWD, room, &listed) && is_same(&folder, &listed));
    errno = kept;
    return found;
}

/* Whether the working directory is one of the system's own below /sys, or /sys itself: relative names may lead on from
 * there into the broker's folder. */
static bool works_in_sys;

void names_note_folder(void) {
    char folder[NAMES_ROOM];
    int kept = errno;
    bool is_there = ask_home() && syscall(SYS_getcwd, folder, sizeof folder) > 0 &&
                    (strcmp(folder, "/sys") == 0 || begins(folder, "/sys/"));
    __atomic_store_n(&works_in_sys, is_there, __ATOMIC_RELAXED);
    errno = kept;
}

__attribute__((constructor)) static void at_start(void) {
    names_note_folder();
}

static bool is_in_sys(void) {
    return __atomic_load_n(&works_in_sys, __ATOMIC_RELAXED);
}

/* Whether a name may be a chip's or stand in the broker's folder, at a quick look. Of all other names the calls below
 * have nothing to say. */
static bool may_concern(const char *path) {
    return ask_home() && memory_text_length(path) > 0 &&
           (begins(last_part(path), CHIP) || begins(path, "/dev") || begins(path, "/sys") || begins(path, "//") ||
               begins(path, "/./") || (*path != '/' && is_in_sys()));
}

/* The number of the chip that a name is the name of, or -1. */
static int chip_of(int from, const char *path) {
    const char *last = last_part(path);
    int chip = begins(last, CHIP) ? number_of(last + strlen(CHIP)) : -1;
    return chip >= 0 && is_dev(from, path, (size_t)(last - path)) ? chip : -1;
}

/* Whether a name stands in the broker's folder. */
static bool is_moved(const char *flat) {
    if (tree_names_has(flat))
        return tree_uses();
    for (size_t i = 0; i < sizeof moved / sizeof *moved; i++) {
        size_t length = strlen(moved[i]);
        if (begins(flat, moved[i]) && (flat[length] == 0 || flat[length] == '/'))
            return true;
    }
    return begins(flat, by_number) || begins(flat, "/dev/" CHIP);
}

/* Writes a path from the root, flat; a relative one where the working directory is below /sys. False for the others. */
static bool whole_path(int from, const char *path, char flat[NAMES_ROOM]) {
    char whole[NAMES_ROOM];
    if (*path == '/')
        return flatten(path, flat);
    int kept = errno;
    bool is_below = from == AT_FDCWD && is_in_sys() && syscall(SYS_getcwd, whole, sizeof whole) > 0;
    errno = kept;
    return is_below && add(whole, "/") && add(whole, path) && flatten(whole, flat);
}

/* A folder of chips has more in it where gpio-sim's file system is shown: it is asked for before one is entered. */
void names_enter(int from, const char *path) {
    char flat[NAMES_ROOM];
    if (may_concern(path) && whole_path(from, path, flat) && tree_names_shares(flat))
        tree_searches();
}

/* What a name that may concern the broker is looked at by. */
static __attribute__((noinline)) const char *look_up(int from, const char *path, char room[NAMES_ROOM], int *chip) {
    char flat[NAMES_ROOM];
    *chip = chip_of(from, path);
    if (*chip >= 0) {
        names_node(*chip, room);
        return room;
    }
    return whole_path(from, path, flat) && is_moved(flat) && in_home(flat, room) ? room : path;
}

const char *names_seen(int from, const char *path, char room[NAMES_ROOM], int *chip) {
    *chip = -1;
    return may_concern(path) ? look_up(from, path, room, chip) : path;
}

const char *names_moved(int from, const char *path, char room[NAMES_ROOM]) {
    int chip;
    return names_seen(from, path, room, &chip);
}

const char *names_moved_folder(int from, const char *path, char room[NAMES_ROOM]) {
    long length = ask_home() ? memory_text_length(path) : -1;
    if (length > 0 && is_dev(from, path, (size_t)length) && names_dev(room))
        return room;
    names_enter(from, path);
    return names_moved(from, path, room);
}

/* Puts what a link says in the place of its own name. False where there is no room. */
static bool follow(char path[NAMES_ROOM], const char *target) {
    path[*target == '/' ? 0 : last_part(path) - path] = 0;
    return add(path, target);
}

int names_linked_chip(int from, const char *path) {
    char name[NAMES_ROOM], target[NAMES_ROOM];
    int kept = errno, chip = -1, links = 0;
    name[0] = 0;
    bool more = ask_home() && memory_text_length(path) > 0 && add(name, path);
    while (more && chip < 0 && links++ < MOST_LINKS) {
        long length = syscall(SYS_readlinkat, from, name, target, sizeof target - 1);
        more = length > 0 && length < (long)sizeof target - 1;
        target[more ? length : 0] = 0;
        more = more && follow(name, target);
        chip = more ? chip_of(from, name) : -1;
    }
    errno = kept;
    return chip;
}

int names_behind(int from, const char *path) {
    switch (errno) {
    case ENOENT:
    case EACCES:
    case EPERM:
    case ENXIO:
    case ENODEV:
        return names_linked_chip(from, path);
    default:
        return -1;
    }
}

bool names_is_empty(const char *path) {
    return !path || memory_text_length(path) == 0;
}

void names_move_back(char *path) {
    const char *home = ask_home();
    size_t length = home ? strlen(home) : 0;
    if (!home || strncmp(path, home, length) != 0 ||
        !(begins(path + length, ROOT "/") || begins(path + length, VIEW "/")))
        return;
    const char *rest = path + length + strlen(ROOT);
    memmove(path, rest, strlen(rest) + 1);
}
