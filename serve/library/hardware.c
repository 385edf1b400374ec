#include "hardware.h"

#include <errno.h>
#include <fcntl.h>
#include <stdio.h>
#include <string.h>
#include <sys/stat.h>
#include <sys/syscall.h>
#include <sys/sysmacros.h>
#include <unistd.h>

/* The name by which the kernel registers the chips' major number. */
#define REGISTERED "gpiochip"
/* Room for a line of /proc/devices, a name in /proc or /sys, and what a link there says. */
#define ROOM 128

/* What a character device is, by its major number. */
enum kind { UNSEEN, OTHER, GPIO };

bool hardware_read_line(const char *line, unsigned *major) {
    unsigned number = 0;
    while (*line == ' ')
        line++;
    if (*line < '0' || *line > '9')
        return false;
    for (; *line >= '0' && *line <= '9' && number < 100000; line++)
        number = 10 * number + (unsigned)(*line - '0');
    *major = number;
    return strcmp(line, " " REGISTERED) == 0;
}

/* Takes a byte of a line, without what is beyond the room for it; whether the line is whole. */
static bool take_byte(char line[ROOM], size_t *length, char byte) {
    bool whole = byte == '\n';
    if (!whole && *length < ROOM - 1)
        line[(*length)++] = byte;
    line[*length] = 0;
    if (whole)
        *length = 0;
    return whole;
}

/* What /proc/devices says of a major number. (The block devices, which it lists too, have other names.) */
static enum kind listed_kind(unsigned wanted) {
    char block[512], line[ROOM];
    size_t length = 0;
    unsigned major;
    long got;
    enum kind kind = OTHER;
    int file = (int)syscall(SYS_openat, AT_FDCWD, "/proc/devices", O_RDONLY | O_CLOEXEC, 0);
    if (file < 0)
        return UNSEEN;
    while ((got = syscall(SYS_read, file, block, sizeof block)) > 0)
        for (long i = 0; i < got; i++)
            if (take_byte(line, &length, block[i]) && hardware_read_line(line, &major) && major == wanted)
                kind = GPIO;
    syscall(SYS_close, file);
    return kind;
}

/* What a link says; false where it can't be read. */
static bool read_link(const char *path, char text[ROOM]) {
    long length = syscall(SYS_readlinkat, AT_FDCWD, path, text, ROOM - 1);
    text[length > 0 ? length : 0] = 0;
    return length > 0;
}

/* What /sys says of a device, where there is no /proc. */
static enum kind linked_kind(dev_t device) {
    char path[ROOM], text[ROOM];
    snprintf(path, sizeof path, "/sys/dev/char/%u:%u/subsystem", major(device), minor(device));
    if (!read_link(path, text))
        return UNSEEN;
    const char *last = strrchr(text, '/');
    return last && strcmp(last, "/gpio") == 0 ? GPIO : OTHER;
}

/* What a device is. Major numbers stay what they are while the machine runs, so each is looked up once. */
static enum kind kind_of(dev_t device) {
    static unsigned char seen[512];
    unsigned number = major(device);
    enum kind kind = number < sizeof seen ? __atomic_load_n(&seen[number], __ATOMIC_RELAXED) : UNSEEN;
    if (kind != UNSEEN)
        return kind;
    kind = listed_kind(number);
    if (kind == UNSEEN)
        kind = linked_kind(device);
    if (number < sizeof seen)
        __atomic_store_n(&seen[number], (unsigned char)kind, __ATOMIC_RELAXED);
    return kind;
}

int hardware_chip(dev_t device) {
    int kept = errno;
    enum kind kind = kind_of(device);
    errno = kept;
    return kind == GPIO ? (int)minor(device) : -1;
}

/* Whether a file without a place in any file system is a request of lines. */
static bool is_request(int file) {
    char path[ROOM], text[ROOM];
    snprintf(path, sizeof path, "/proc/self/fd/%d", file);
    return !read_link(path, text) || (strncmp(text, "anon_inode:", 11) == 0 && strstr(text, "gpio"));
}

bool hardware_is(int file) {
    struct stat status;
    int kept = errno;
    bool found = false;
    if (syscall(SYS_newfstatat, file, "", &status, AT_EMPTY_PATH) == 0) {
        if (S_ISCHR(status.st_mode))
            found = kind_of(status.st_rdev) != OTHER;
        else if ((status.st_mode & S_IFMT) == 0)
            found = is_request(file);
    }
    errno = kept;
    return found;
}

void hardware_refuse(int file, uint32_t command) {
    static bool said;
    char text[ROOM];
    int kept = errno;
    if (!__atomic_exchange_n(&said, true, __ATOMIC_RELAXED)) {
        int length = snprintf(text, sizeof text,
            "gpioserve: refused command 0x%x on file %d, a GPIO device of this machine itself\n", command, file);
        syscall(SYS_write, STDERR_FILENO, text, (size_t)length);
    }
    errno = kept;
}
