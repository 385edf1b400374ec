/* Opening files by their names. */
#include <errno.h>
#include <fcntl.h>
#include <stdarg.h>
#include <stdbool.h>
#include <stdio.h>
#include <sys/stat.h>
#include <sys/syscall.h>
#include <unistd.h>

#include "ask.h"
#include "flags.h"
#include "hardware.h"
#include "known.h"
#include "mounts.h"
#include "names.h"
#include "real.h"

/* Opens a chip: its file, or -1 with errno. */
static int open_chip(int chip, int flags) {
    struct question question = {.op = WIRE_OPEN, .command = (uint32_t)chip};
    struct answer answer;
    int file;
    int error = ask(&question, NULL, &answer, NULL, 0, &file, flags & O_CLOEXEC);
    if (error == 0)
        error = answer.error;
    if (error == 0 && file < 0)
        error = ENODEV;
    if (error) {
        errno = error;
        return -1;
    }
    flags_keep(file, flags);
    known_keep(file, chip);
    return file;
}

/* Opens a chip by its name, which isn't to be there yet where the flags say so. */
static __attribute__((noinline)) int open_named_chip(int chip, const char *node, int flags) {
    bool is_new = (flags & O_CREAT) && (flags & O_EXCL);
    if (!is_new || syscall(SYS_faccessat, AT_FDCWD, node, F_OK))
        return open_chip(chip, flags);
    errno = EEXIST;
    return -1;
}

/* Opens what is listed in the place of /dev, in the place of `file`. */
static __attribute__((noinline)) int open_dev(int file, int flags) {
    char room[NAMES_ROOM];
    if (!names_dev(room))
        return file;
    syscall(SYS_close, file);
    return REAL(openat)(AT_FDCWD, room, flags, 0);
}

/* Looks at what the system has opened. A chip of the machine itself is one of the broker's instead, whatever its name
 * was, and so is the folder /dev. */
static int replace_opened(int file, int flags) {
    struct stat status;
    if (!ask_home() || (flags & O_PATH) || syscall(SYS_newfstatat, file, "", &status, AT_EMPTY_PATH))
        return file;
    if (S_ISDIR(status.st_mode))
        return names_is_dev(&status) ? open_dev(file, flags) : file;
    int chip = S_ISCHR(status.st_mode) ? hardware_chip(status.st_rdev) : -1;
    if (chip < 0)
        return file;
    syscall(SYS_close, file);
    return open_chip(chip, flags);
}

/* Opens any name. A link to a chip that isn't there would make a file. */
static int open_any(int from, const char *path, int flags, mode_t mode) {
    char room[NAMES_ROOM];
    const int reads = (flags & (O_ACCMODE | O_PATH | O_DIRECTORY)) == O_RDONLY;
    int chip, list = reads ? mounts_open(path, flags & O_CLOEXEC) : -1;
    if (list >= 0)
        return list;
    if (flags & O_DIRECTORY)
        names_enter(from, path);
    const char *seen = names_seen(from, path, room, &chip);
    if (chip >= 0 && !(flags & (O_PATH | O_DIRECTORY)))
        return open_named_chip(chip, seen, flags);
    bool follows = !(flags & O_NOFOLLOW) && !(flags & O_EXCL);
    chip = follows && (flags & O_CREAT) ? names_linked_chip(from, path) : -1;
    if (chip >= 0)
        return open_chip(chip, flags);
    int file = REAL(openat)(from, seen, flags, mode);
    if (file >= 0)
        return replace_opened(file, flags);
    chip = follows ? names_behind(from, path) : -1;
    return chip >= 0 && !(flags & (O_PATH | O_DIRECTORY)) ? open_chip(chip, flags) : file;
}

/* The mode that stands after the flags, where they say that there is one. */
static mode_t mode_of(int flags, va_list values) {
    return flags & O_CREAT || (flags & O_TMPFILE) == O_TMPFILE ? va_arg(values, mode_t) : 0;
}

TAKES_OVER int open(const char *path, int flags, ...) {
    va_list values;
    va_start(values, flags);
    mode_t mode = mode_of(flags, values);
    va_end(values);
    return open_any(AT_FDCWD, path, flags, mode);
}

TAKES_OVER int open64(const char *path, int flags, ...) {
    va_list values;
    va_start(values, flags);
    mode_t mode = mode_of(flags, values);
    va_end(values);
    return open_any(AT_FDCWD, path, flags | O_LARGEFILE, mode);
}

TAKES_OVER int openat(int from, const char *path, int flags, ...) {
    va_list values;
    va_start(values, flags);
    mode_t mode = mode_of(flags, values);
    va_end(values);
    return open_any(from, path, flags, mode);
}

TAKES_OVER int openat64(int from, const char *path, int flags, ...) {
    va_list values;
    va_start(values, flags);
    mode_t mode = mode_of(flags, values);
    va_end(values);
    return open_any(from, path, flags | O_LARGEFILE, mode);
}

TAKES_OVER int creat(const char *path, mode_t mode) {
    return open_any(AT_FDCWD, path, O_CREAT | O_WRONLY | O_TRUNC, mode);
}

TAKES_OVER int creat64(const char *path, mode_t mode) {
    return open_any(AT_FDCWD, path, O_CREAT | O_WRONLY | O_TRUNC | O_LARGEFILE, mode);
}

int __open_2(const char *path, int flags);
TAKES_OVER int __open_2(const char *path, int flags) {
    return open_any(AT_FDCWD, path, flags, 0);
}

int __open64_2(const char *path, int flags);
TAKES_OVER int __open64_2(const char *path, int flags) {
    return open_any(AT_FDCWD, path, flags | O_LARGEFILE, 0);
}

int __openat_2(int from, const char *path, int flags);
TAKES_OVER int __openat_2(int from, const char *path, int flags) {
    return open_any(from, path, flags, 0);
}

int __openat64_2(int from, const char *path, int flags);
TAKES_OVER int __openat64_2(int from, const char *path, int flags) {
    return open_any(from, path, flags | O_LARGEFILE, 0);
}

TAKES_OVER FILE *fopen(const char *path, const char *mode) {
    char room[NAMES_ROOM];
    FILE *list = mounts_open_stream(path, mode);
    if (list)
        return list;
    return REAL(fopen)(names_moved(AT_FDCWD, path, room), mode);
}

TAKES_OVER FILE *fopen64(const char *path, const char *mode) {
    char room[NAMES_ROOM];
    FILE *list = mounts_open_stream(path, mode);
    if (list)
        return list;
    return REAL(fopen64)(names_moved(AT_FDCWD, path, room), mode);
}
