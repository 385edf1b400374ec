/* How a chip was opened belongs to the open file, which several processes may have. So it stands in flags of the pipe's
 * reading end. */
#include "flags.h"

#include <errno.h>
#include <fcntl.h>
#include <stdarg.h>
#include <sys/syscall.h>
#include <unistd.h>

#include "../wire.h"
#include "known.h"
#include "real.h"

#define MARKS (WIRE_READS | WIRE_WRITES)

static int raw_flags(int file) {
    return (int)syscall(SYS_fcntl, file, F_GETFL);
}

static int marks_of(int flags) {
    int access = flags & O_ACCMODE;
    return (access != O_WRONLY ? WIRE_READS : 0) | (access != O_RDONLY ? WIRE_WRITES : 0);
}

static int access_of(int raw) {
    return !(raw & WIRE_WRITES) ? O_RDONLY : raw & WIRE_READS ? O_RDWR : O_WRONLY;
}

void flags_keep(int file, int flags) {
    syscall(SYS_fcntl, file, F_SETFL, marks_of(flags) | (flags & O_NONBLOCK));
}

bool flags_are_kept(int file) {
    int kept = errno, raw = raw_flags(file);
    errno = kept;
    return raw >= 0 && (raw & MARKS) && (raw & O_ACCMODE) == O_RDONLY;
}

static int get_flags(int file) {
    int raw = raw_flags(file);
    if (raw < 0 || !(raw & MARKS) || (raw & O_ACCMODE) != O_RDONLY || !known_file(file).ours)
        return raw;
    return (raw & ~(MARKS | O_ACCMODE)) | access_of(raw);
}

static int set_flags(int file, int flags) {
    int raw = raw_flags(file);
    if (raw >= 0 && (raw & MARKS) && (raw & O_ACCMODE) == O_RDONLY && known_file(file).ours)
        flags = (flags & ~MARKS) | (raw & MARKS);
    return (int)syscall(SYS_fcntl, file, F_SETFL, flags);
}

static int control(int file, int command, void *argument) {
    switch (command) {
    case F_GETFL:
        return get_flags(file);
    case F_SETFL:
        return set_flags(file, (int)(long)argument);
    default:
        return REAL(fcntl)(file, command, argument);
    }
}

TAKES_OVER int fcntl(int file, int command, ...) {
    va_list values;
    va_start(values, command);
    void *argument = va_arg(values, void *);
    va_end(values);
    return control(file, command, argument);
}

TAKES_OVER int fcntl64(int file, int command, ...) {
    va_list values;
    va_start(values, command);
    void *argument = va_arg(values, void *);
    va_end(values);
    return control(file, command, argument);
}
