/* Folders that are made and removed, and the working directory: those of gpio-sim's file system too. */
#include <errno.h>
#include <fcntl.h>
#include <stdio.h>
#include <stdlib.h>
#include <string.h>
#include <sys/stat.h>
#include <unistd.h>

#include "names.h"
#include "real.h"

TAKES_OVER int mkdir(const char *path, mode_t mode) {
    char room[NAMES_ROOM];
    return REAL(mkdir)(names_moved(AT_FDCWD, path, room), mode);
}

TAKES_OVER int mkdirat(int from, const char *path, mode_t mode) {
    char room[NAMES_ROOM];
    return REAL(mkdirat)(from, names_moved(from, path, room), mode);
}

TAKES_OVER int rmdir(const char *path) {
    char room[NAMES_ROOM];
    return REAL(rmdir)(names_moved(AT_FDCWD, path, room));
}

TAKES_OVER int unlink(const char *path) {
    char room[NAMES_ROOM];
    return REAL(unlink)(names_moved(AT_FDCWD, path, room));
}

TAKES_OVER int unlinkat(int from, const char *path, int flags) {
    char room[NAMES_ROOM];
    return REAL(unlinkat)(from, names_moved(from, path, room), flags);
}

TAKES_OVER int remove(const char *path) {
    char room[NAMES_ROOM];
    return REAL(remove)(names_moved(AT_FDCWD, path, room));
}

TAKES_OVER int truncate(const char *path, off_t length) {
    char room[NAMES_ROOM];
    return REAL(truncate)(names_moved(AT_FDCWD, path, room), length);
}

TAKES_OVER int truncate64(const char *path, off64_t length) {
    char room[NAMES_ROOM];
    return REAL(truncate64)(names_moved(AT_FDCWD, path, room), length);
}

TAKES_OVER int chdir(const char *path) {
    char room[NAMES_ROOM];
    names_enter(AT_FDCWD, path);
    int result = REAL(chdir)(names_moved(AT_FDCWD, path, room));
    if (result == 0)
        names_note_folder();
    return result;
}

TAKES_OVER int fchdir(int folder) {
    int result = REAL(fchdir)(folder);
    if (result == 0)
        names_note_folder();
    return result;
}

TAKES_OVER char *getcwd(char *text, size_t size) {
    char *found = REAL(getcwd)(text, size);
    if (found)
        names_move_back(found);
    return found;
}

char *__getcwd_chk(char *text, size_t size, size_t has);
TAKES_OVER char *__getcwd_chk(char *text, size_t size, size_t has) {
    if (size > has)
        abort();
    return getcwd(text, size);
}

TAKES_OVER char *get_current_dir_name(void) {
    char *found = REAL(get_current_dir_name)();
    if (found)
        names_move_back(found);
    return found;
}
