/* The status of names and of open files: chips are character devices. */
#include <errno.h>
#include <fcntl.h>
#include <stdbool.h>
#include <sys/stat.h>
#include <sys/syscall.h>
#include <sys/sysmacros.h>
#include <unistd.h>

#include "../wire.h"
#include "hardware.h"
#include "known.h"
#include "names.h"
#include "real.h"

/* Makes a status that of a chip's device. */
static void show_chip(struct stat *status, int chip) {
    status->st_mode = S_IFCHR | 0660;
    status->st_rdev = makedev(WIRE_MAJOR, (unsigned)chip);
    status->st_size = 0;
    status->st_blocks = 0;
}

static int stat_file(int file, struct stat *status) {
    int result = (int)syscall(SYS_newfstatat, file, "", status, AT_EMPTY_PATH);
    if (result == 0 && S_ISFIFO(status->st_mode)) {
        struct known known = known_file(file);
        if (known.ours && known.chip >= 0)
            show_chip(status, known.chip);
    }
    return result;
}

static __attribute__((noinline)) int stat_node(int chip, struct stat *status) {
    char room[NAMES_ROOM];
    names_node(chip, room);
    int result = (int)syscall(SYS_newfstatat, AT_FDCWD, room, status, 0);
    if (result == 0)
        show_chip(status, chip);
    return result;
}

static int stat_any(int from, const char *path, struct stat *status, int flags) {
    char room[NAMES_ROOM];
    int chip;
    if ((flags & AT_EMPTY_PATH) && path && names_is_empty(path))
        return stat_file(from, status);
    const char *seen = names_seen(from, path, room, &chip);
    int result = chip >= 0 ? -1 : (int)syscall(SYS_newfstatat, from, seen, status, flags);
    if (result == 0 && S_ISCHR(status->st_mode))
        chip = hardware_chip(status->st_rdev);
    else if (result != 0 && chip < 0 && !(flags & AT_SYMLINK_NOFOLLOW))
        chip = names_behind(from, path);
    return chip >= 0 ? stat_node(chip, status) : result;
}

/* Both forms of a status are one on machines of 64 bits. */
_Static_assert(sizeof(struct stat) == sizeof(struct stat64), "the status of a file has one form");

TAKES_OVER int stat(const char *path, struct stat *status) {
    return stat_any(AT_FDCWD, path, status, 0);
}

TAKES_OVER int stat64(const char *path, struct stat64 *status) {
    return stat_any(AT_FDCWD, path, (struct stat *)status, 0);
}

TAKES_OVER int lstat(const char *path, struct stat *status) {
    return stat_any(AT_FDCWD, path, status, AT_SYMLINK_NOFOLLOW);
}

TAKES_OVER int lstat64(const char *path, struct stat64 *status) {
    return stat_any(AT_FDCWD, path, (struct stat *)status, AT_SYMLINK_NOFOLLOW);
}

TAKES_OVER int fstat(int file, struct stat *status) {
    return stat_file(file, status);
}

TAKES_OVER int fstat64(int file, struct stat64 *status) {
    return stat_file(file, (struct stat *)status);
}

TAKES_OVER int fstatat(int from, const char *path, struct stat *status, int flags) {
    return stat_any(from, path, status, flags);
}

TAKES_OVER int fstatat64(int from, const char *path, struct stat64 *status, int flags) {
    return stat_any(from, path, (struct stat *)status, flags);
}

/* Programs that were built with an older C library call these. */
int __xstat(int version, const char *path, struct stat *status);
int __xstat64(int version, const char *path, struct stat64 *status);
int __lxstat(int version, const char *path, struct stat *status);
int __lxstat64(int version, const char *path, struct stat64 *status);
int __fxstat(int version, int file, struct stat *status);
int __fxstat64(int version, int file, struct stat64 *status);
int __fxstatat(int version, int from, const char *path, struct stat *status, int flags);
int __fxstatat64(int version, int from, const char *path, struct stat64 *status, int flags);

TAKES_OVER int __xstat(int version, const char *path, struct stat *status) {
    (void)version;
    return stat_any(AT_FDCWD, path, status, 0);
}

TAKES_OVER int __xstat64(int version, const char *path, struct stat64 *status) {
    (void)version;
    return stat_any(AT_FDCWD, path, (struct stat *)status, 0);
}

TAKES_OVER int __lxstat(int version, const char *path, struct stat *status) {
    (void)version;
    return stat_any(AT_FDCWD, path, status, AT_SYMLINK_NOFOLLOW);
}

TAKES_OVER int __lxstat64(int version, const char *path, struct stat64 *status) {
    (void)version;
    return stat_any(AT_FDCWD, path, (struct stat *)status, AT_SYMLINK_NOFOLLOW);
}

TAKES_OVER int __fxstat(int version, int file, struct stat *status) {
    (void)version;
    return stat_file(file, status);
}

TAKES_OVER int __fxstat64(int version, int file, struct stat64 *status) {
    (void)version;
    return stat_file(file, (struct stat *)status);
}

TAKES_OVER int __fxstatat(int version, int from, const char *path, struct stat *status, int flags) {
    (void)version;
    return stat_any(from, path, status, flags);
}

TAKES_OVER int __fxstatat64(int version, int from, const char *path, struct stat64 *status, int flags) {
    (void)version;
    return stat_any(from, path, (struct stat *)status, flags);
}

/* Shows a chip by the status of its file in the broker's folder. */
static __attribute__((noinline)) int statx_node(int chip, unsigned mask, struct statx *status) {
    char room[NAMES_ROOM];
    names_node(chip, room);
    return (int)syscall(SYS_statx, AT_FDCWD, room, 0, mask, status);
}

static void show_chip_in(struct statx *status, int chip) {
    status->stx_mode = S_IFCHR | 0660;
    status->stx_rdev_major = WIRE_MAJOR;
    status->stx_rdev_minor = (unsigned)chip;
    status->stx_size = 0;
    status->stx_blocks = 0;
}

TAKES_OVER int statx(int from, const char *path, int flags, unsigned mask, struct statx *status) {
    char room[NAMES_ROOM];
    int chip, behind = -1;
    const char *seen = names_seen(from, path, room, &chip);
    bool is_file = (flags & AT_EMPTY_PATH) && names_is_empty(path);
    int result = (int)syscall(SYS_statx, from, seen, flags, mask, status);
    if (result == 0 && is_file)
        chip = known_file(from).chip;
    else if (result == 0 && chip < 0 && S_ISCHR(status->stx_mode))
        behind = hardware_chip(makedev(status->stx_rdev_major, status->stx_rdev_minor));
    else if (result != 0 && chip < 0 && !(flags & AT_SYMLINK_NOFOLLOW))
        behind = names_behind(from, path);
    if (behind >= 0) {
        chip = behind;
        result = statx_node(chip, mask, status);
    }
    if (result == 0 && chip >= 0)
        show_chip_in(status, chip);
    return result;
}
