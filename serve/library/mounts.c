#include "mounts.h"

#include <errno.h>
#include <fcntl.h>
#include <string.h>
#include <sys/mman.h>
#include <sys/syscall.h>
#include <unistd.h>

#include "ask.h"
#include "memory.h"
#include "real.h"
#include "tree.h"

#define PLACE "/sys/kernel/config"

/* The forms of a line: those of /proc/self/mountinfo and of the others. */
static const char long_line[] = "9999 1 0:9999 / " PLACE " rw,nosuid,nodev,noexec,relatime - configfs configfs rw\n";
static const char short_line[] = "configfs " PLACE " configfs rw,nosuid,nodev,noexec,relatime 0 0\n";

/* The line that is added to a list; NULL where the path names none. */
static const char *line_for(const char *path) {
    static const char *const lists[] = {"/proc/self/mountinfo", "/proc/self/mounts", "/proc/mounts", "/etc/mtab"};
    if (memory_text_length(path) <= 0 || (strncmp(path, "/proc/", 6) != 0 && strncmp(path, "/etc/", 5) != 0))
        return NULL;
    for (size_t i = 0; i < sizeof lists / sizeof *lists; i++)
        if (strcmp(path, lists[i]) == 0)
            return i == 0 ? long_line : short_line;
    return NULL;
}

static bool write_all(int file, const char *bytes, size_t length) {
    while (length > 0) {
        long written = syscall(SYS_write, file, bytes, length);
        if (written < 0 && errno == EINTR)
            continue;
        if (written <= 0)
            return false;
        bytes += written;
        length -= (size_t)written;
    }
    return true;
}

/* Copies a file to another one. */
static bool copy_all(int from, int to) {
    char bytes[512];
    for (;;) {
        long got = syscall(SYS_read, from, bytes, sizeof bytes);
        if (got < 0 && errno == EINTR)
            continue;
        if (got <= 0)
            return got == 0;
        if (!write_all(to, bytes, (size_t)got))
            return false;
    }
}

/* A file without a name that has the list and the line; -1 where it can't be made. */
static int copy_with(const char *path, const char *line, bool close_on_exec) {
    int from = (int)syscall(SYS_openat, AT_FDCWD, path, O_RDONLY | O_CLOEXEC);
    int file = from >= 0 ? (int)syscall(SYS_memfd_create, "mounts", close_on_exec ? MFD_CLOEXEC : 0) : -1;
    if (file >= 0 &&
        !(copy_all(from, file) && write_all(file, line, strlen(line)) && syscall(SYS_lseek, file, 0, SEEK_SET) == 0)) {
        syscall(SYS_close, file);
        file = -1;
    }
    if (from >= 0)
        syscall(SYS_close, from);
    return file;
}

int mounts_open(const char *path, bool close_on_exec) {
    int kept = errno;
    const char *line = ask_home() ? line_for(path) : NULL;
    int file = line && tree_searches() ? copy_with(path, line, close_on_exec) : -1;
    errno = kept;
    return file;
}

FILE *mounts_open_stream(const char *path, const char *mode) {
    if (*mode != 'r' || strchr(mode, '+'))
        return NULL;
    int file = mounts_open(path, strchr(mode, 'e') != NULL);
    FILE *stream = file >= 0 ? fdopen(file, "r") : NULL;
    if (file >= 0 && !stream)
        syscall(SYS_close, file);
    return stream;
}

#include <mntent.h>
TAKES_OVER FILE *setmntent(const char *path, const char *mode) {
    FILE *stream = mounts_open_stream(path, mode);
    return stream ? stream : REAL(setmntent)(path, mode);
}
