/* What is asked of names: rights, links, and the names in a folder. */
#include <dirent.h>
#include <errno.h>
#include <fcntl.h>
#include <glob.h>
#include <stdbool.h>
#include <stdlib.h>
#include <string.h>
#include <sys/stat.h>
#include <sys/syscall.h>
#include <sys/xattr.h>
#include <unistd.h>

#include "ask.h"
#include "memory.h"
#include "names.h"
#include "real.h"

/* Whether a call on a name has failed, and the name is a link to a chip, whose path is written to `room` then. */
static bool is_behind(int result, int from, const char *path, char room[NAMES_ROOM]) {
    int chip = result == 0 ? -1 : names_behind(from, path);
    if (chip >= 0)
        names_node(chip, room);
    return chip >= 0;
}

TAKES_OVER int access(const char *path, int mode) {
    char room[NAMES_ROOM];
    int result = REAL(access)(names_moved(AT_FDCWD, path, room), mode);
    return is_behind(result, AT_FDCWD, path, room) ? REAL(access)(room, mode) : result;
}

TAKES_OVER int faccessat(int from, const char *path, int mode, int flags) {
    char room[NAMES_ROOM];
    int result = REAL(faccessat)(from, names_moved(from, path, room), mode, flags);
    bool follows = !(flags & AT_SYMLINK_NOFOLLOW);
    return follows && is_behind(result, from, path, room) ? REAL(faccessat)(from, room, mode, flags) : result;
}

TAKES_OVER int euidaccess(const char *path, int mode) {
    char room[NAMES_ROOM];
    int result = REAL(euidaccess)(names_moved(AT_FDCWD, path, room), mode);
    return is_behind(result, AT_FDCWD, path, room) ? REAL(euidaccess)(room, mode) : result;
}

TAKES_OVER int eaccess(const char *path, int mode) {
    return euidaccess(path, mode);
}

/* `ls -l` asks of each name whether it has an access list. */
TAKES_OVER ssize_t getxattr(const char *path, const char *name, void *value, size_t size) {
    char room[NAMES_ROOM];
    return REAL(getxattr)(names_moved(AT_FDCWD, path, room), name, value, size);
}

TAKES_OVER ssize_t lgetxattr(const char *path, const char *name, void *value, size_t size) {
    char room[NAMES_ROOM];
    return REAL(lgetxattr)(names_moved(AT_FDCWD, path, room), name, value, size);
}

TAKES_OVER ssize_t listxattr(const char *path, char *list, size_t size) {
    char room[NAMES_ROOM];
    return REAL(listxattr)(names_moved(AT_FDCWD, path, room), list, size);
}

TAKES_OVER ssize_t llistxattr(const char *path, char *list, size_t size) {
    char room[NAMES_ROOM];
    return REAL(llistxattr)(names_moved(AT_FDCWD, path, room), list, size);
}

/* A link's text as the program knows it: without the broker's folder. */
static ssize_t read_link(int from, const char *path, char *text, size_t room) {
    char moved_room[NAMES_ROOM], whole[NAMES_ROOM];
    const char *moved = names_moved(from, path, moved_room);
    if (moved == path)
        return syscall(SYS_readlinkat, from, path, text, room);
    ssize_t length = syscall(SYS_readlinkat, from, moved, whole, sizeof whole - 1);
    if (length < 0)
        return length;
    whole[length] = 0;
    names_move_back(whole);
    length = (ssize_t)strlen(whole);
    if ((size_t)length > room)
        length = (ssize_t)room;
    int error = memory_write(text, whole, (size_t)length);
    if (error == 0)
        return length;
    errno = error;
    return -1;
}

TAKES_OVER ssize_t readlink(const char *path, char *text, size_t room) {
    return read_link(AT_FDCWD, path, text, room);
}

TAKES_OVER ssize_t readlinkat(int from, const char *path, char *text, size_t room) {
    return read_link(from, path, text, room);
}

ssize_t __readlink_chk(const char *path, char *text, size_t room, size_t size);
TAKES_OVER ssize_t __readlink_chk(const char *path, char *text, size_t room, size_t size) {
    if (room > size)
        abort();
    return read_link(AT_FDCWD, path, text, room);
}

ssize_t __readlinkat_chk(int from, const char *path, char *text, size_t room, size_t size);
TAKES_OVER ssize_t __readlinkat_chk(int from, const char *path, char *text, size_t room, size_t size) {
    if (room > size)
        abort();
    return read_link(from, path, text, room);
}

TAKES_OVER char *realpath(const char *path, char *text) {
    char room[NAMES_ROOM];
    const char *moved = names_moved(AT_FDCWD, path, room);
    int kept = errno, chip = path && moved == path ? names_linked_chip(AT_FDCWD, path) : -1;
    if (chip >= 0) {
        names_node(chip, room);
        moved = room;
    }
    if (moved == path)
        return REAL(realpath)(path, text);
    char *found = REAL(realpath)(moved, NULL);
    if (!found)
        return NULL;
    names_move_back(found);
    errno = kept;
    if (!text)
        return found;
    strcpy(text, found); /* (a path that realpath gave is shorter than PATH_MAX, which `text` has room for) */
    free(found);
    return text;
}

char *__realpath_chk(const char *path, char *text, size_t size);
TAKES_OVER char *__realpath_chk(const char *path, char *text, size_t size) {
    if (size < PATH_MAX)
        abort();
    return realpath(path, text);
}

TAKES_OVER char *canonicalize_file_name(const char *path) {
    return realpath(path, NULL);
}

/* Whether a folder is the one that is listed for /dev. */
static __attribute__((noinline)) bool is_dev(DIR *folder) {
    char room[NAMES_ROOM];
    struct stat shown, listed;
    int kept = errno;
    bool same = names_dev(room) && syscall(SYS_newfstatat, AT_FDCWD, room, &shown, 0) == 0 &&
                syscall(SYS_newfstatat, dirfd(folder), "", &listed, AT_EMPTY_PATH) == 0 &&
                shown.st_ino == listed.st_ino && shown.st_dev == listed.st_dev;
    errno = kept;
    return same;
}

/* (opening puts the folder that is listed in the place of /dev) */
TAKES_OVER DIR *opendir(const char *path) {
    int file = open(path, O_RDONLY | O_NONBLOCK | O_DIRECTORY | O_CLOEXEC);
    DIR *folder = file < 0 ? NULL : fdopendir(file);
    if (file >= 0 && !folder) {
        int error = errno;
        close(file);
        errno = error;
    }
    return folder;
}

TAKES_OVER int scandirat(int from, const char *path, struct dirent ***list, int (*filter)(const struct dirent *),
    int (*order)(const struct dirent **, const struct dirent **)) {
    char room[NAMES_ROOM];
    return REAL(scandirat)(from, names_moved_folder(from, path, room), list, filter, order);
}

TAKES_OVER int scandirat64(int from, const char *path, struct dirent64 ***list, int (*filter)(const struct dirent64 *),
    int (*order)(const struct dirent64 **, const struct dirent64 **)) {
    char room[NAMES_ROOM];
    return REAL(scandirat64)(from, names_moved_folder(from, path, room), list, filter, order);
}

TAKES_OVER int scandir(const char *path, struct dirent ***list, int (*filter)(const struct dirent *),
    int (*order)(const struct dirent **, const struct dirent **)) {
    return scandirat(AT_FDCWD, path, list, filter, order);
}

TAKES_OVER int scandir64(const char *path, struct dirent64 ***list, int (*filter)(const struct dirent64 *),
    int (*order)(const struct dirent64 **, const struct dirent64 **)) {
    return scandirat64(AT_FDCWD, path, list, filter, order);
}

/* Chips that are listed are devices. */
TAKES_OVER struct dirent *readdir(DIR *folder) {
    struct dirent *entry = REAL(readdir)(folder);
    if (entry && strncmp(entry->d_name, "gpiochip", strlen("gpiochip")) == 0 && is_dev(folder))
        entry->d_type = DT_CHR;
    return entry;
}

_Static_assert(sizeof(struct dirent) == sizeof(struct dirent64), "the entry of a folder has one form");

TAKES_OVER struct dirent64 *readdir64(DIR *folder) {
    return (struct dirent64 *)readdir(folder);
}

static void *glob_open(const char *path) {
    return opendir(path);
}

static struct dirent *glob_read(void *folder) {
    return readdir(folder);
}

static void glob_close(void *folder) {
    closedir(folder);
}

/* Patterns are matched over the folders that this library shows. */
TAKES_OVER int glob(const char *pattern, int flags, int (*error)(const char *, int), glob_t *found) {
    if (ask_home() && !(flags & GLOB_ALTDIRFUNC)) {
        flags |= GLOB_ALTDIRFUNC;
        found->gl_opendir = glob_open;
        found->gl_readdir = glob_read;
        found->gl_closedir = glob_close;
        found->gl_stat = stat;
        found->gl_lstat = lstat;
    }
    return REAL(glob)(pattern, flags, error, found);
}

TAKES_OVER int glob64(const char *pattern, int flags, int (*error)(const char *, int), glob64_t *found) {
    return glob(pattern, flags, error, (glob_t *)found);
}
