/* Calls on open files: commands, reads and polls. */
#include <errno.h>
#include <fcntl.h>
#include <limits.h>
#include <poll.h>
#include <stdarg.h>
#include <stdint.h>
#include <stdlib.h>
#include <sys/ioctl.h>
#include <sys/syscall.h>
#include <sys/uio.h>
#include <unistd.h>

#include "../uapi.h"
#include "ask.h"
#include "flags.h"
#include "hardware.h"
#include "known.h"
#include "memory.h"
#include "real.h"

static int fail(int error) {
    errno = error;
    return -1;
}

/* Writes the number of a file that came to its place in the program's structure, or closes it. */
static int give_number(int file, const struct answer *answer, size_t length, void *structure) {
    int error = answer->fd_at + sizeof file <= length ? 0 : EIO;
    if (error == 0)
        error = memory_write((char *)structure + answer->fd_at, &file, sizeof file);
    if (error) {
        syscall(SYS_close, file);
        return fail(error);
    }
    flags_keep(file, O_RDONLY);
    known_keep(file, -1);
    return 0;
}

/* A command whose structure cannot be read: EFAULT, unless the file refuses it before. 1: the file turned out to be
 * another one. */
static int command_unread(const struct known *known, uint32_t number) {
    struct question question = {.op = WIRE_IOCTL, .command = number, .ino = known->ino};
    struct answer answer;
    int error = ask(&question, NULL, &answer, NULL, 0, NULL, true);
    if (error == 0 && answer.found < 0)
        return 1;
    return fail(error ? error : answer.error ? answer.error : EFAULT);
}

/* A command on a file of the broker's. 1: the file turned out to be another one. */
static int command(const struct known *known, uint32_t number, void *structure) {
    struct question question = {.op = WIRE_IOCTL, .command = number, .ino = known->ino};
    struct answer answer;
    int made;
    size_t length = uapi_length(number);
    question.length = (uint32_t)length;
    int error = ask(&question, structure, &answer, structure, length, &made, true);
    if (error == EFAULT && !memory_is_readable(structure, length))
        return command_unread(known, number);
    if (error)
        return fail(error);
    if (answer.found < 0)
        return 1;
    if (answer.error)
        return fail(answer.error);
    if (made >= 0)
        return give_number(made, &answer, length, structure);
    return answer.fd_at > 0 ? fail(ENODEV) : 0;
}

/* A GPIO command on any file. 1: the system answers it, since the file is no GPIO device. */
static int gpio_command(int file, uint32_t number, void *structure) {
    struct known known = known_file(file);
    int done = known.ours ? command(&known, number, structure) : 1;
    if (done <= 0 || !ask_home() || !hardware_is(file))
        return done;
    hardware_refuse(file, number);
    return fail(EPERM);
}

TAKES_OVER int ioctl(int file, unsigned long number, ...) {
    va_list values;
    va_start(values, number);
    void *structure = va_arg(values, void *);
    va_end(values);
    if (UAPI_TYPE(number) == UAPI_GPIO) {
        int done = gpio_command(file, (uint32_t)number, structure);
        if (done <= 0)
            return done;
    }
    /* (how many bytes wait is no command of a chip; of its pipe it would be) */
    if (number == FIONREAD && known_file(file).ours)
        return fail(EINVAL);
    return REAL(ioctl)(file, number, structure);
}

/* Waits until a file has something to read, or its chip is gone. */
static bool wait_for(int file) {
    struct pollfd wait = {.fd = file, .events = POLLIN};
    return REAL(poll)(&wait, 1, -1) >= 0;
}

/* A read of a file of the broker's. -2: the file turned out to be another one. */
static ssize_t read_ours(int file, const struct known *known, void *bytes, size_t room) {
    struct question question = {.op = WIRE_READ, .ino = known->ino};
    struct answer answer;
    question.command = room < WIRE_DATA ? (uint32_t)room : WIRE_DATA;
    for (;;) {
        int error = ask(&question, NULL, &answer, bytes, question.command, NULL, true);
        if (error)
            return fail(error);
        if (answer.found < 0)
            return -2;
        if (answer.error == 0)
            return answer.length <= question.command ? (ssize_t)answer.length : fail(EIO);
        int flags = answer.error == EAGAIN ? fcntl(file, F_GETFL) : O_NONBLOCK;
        if (flags < 0 || (flags & O_NONBLOCK))
            return fail(answer.error);
        if (!wait_for(file))
            return -1;
    }
}

TAKES_OVER ssize_t read(int file, void *bytes, size_t room) {
    struct known known = known_file(file);
    ssize_t got = known.ours ? read_ours(file, &known, bytes, room) : -2;
    return got == -2 ? REAL(read)(file, bytes, room) : got;
}

ssize_t __read_chk(int file, void *bytes, size_t room, size_t size);
TAKES_OVER ssize_t __read_chk(int file, void *bytes, size_t room, size_t size) {
    if (room > size)
        abort();
    return read(file, bytes, room);
}

/* Reads into one place after another, as the kernel does, until one isn't filled. -2: the file turned out to be another
 * one. */
static ssize_t readv_ours(int file, const struct known *known, const struct iovec *parts, int count) {
    ssize_t sum = 0;
    if (!memory_is_readable(parts, (size_t)count * sizeof *parts))
        return fail(EFAULT);
    for (int i = 0; i < count; i++) {
        size_t room = parts[i].iov_len;
        ssize_t got = room > 0 ? read_ours(file, known, parts[i].iov_base, room) : 0;
        if (got < 0)
            return sum > 0 ? sum : got;
        sum += got;
        if ((size_t)got < room)
            break;
    }
    return sum;
}

TAKES_OVER ssize_t readv(int file, const struct iovec *parts, int count) {
    struct known known = known_file(file);
    ssize_t got = known.ours && count > 0 && count <= IOV_MAX ? readv_ours(file, &known, parts, count) : -2;
    return got == -2 ? REAL(readv)(file, parts, count) : got;
}

/* Of a chip that is gone the kernel says that there is an error too, a pipe that it is hung up alone. */
static void add_errors(struct pollfd *files, nfds_t count) {
    for (nfds_t i = 0; i < count; i++)
        if ((files[i].revents & POLLHUP) && known_file(files[i].fd).ours)
            files[i].revents |= POLLERR;
}

TAKES_OVER int poll(struct pollfd *files, nfds_t count, int timeout) {
    int ready = REAL(poll)(files, count, timeout);
    if (ready > 0)
        add_errors(files, count);
    return ready;
}

int __poll_chk(struct pollfd *files, nfds_t count, int timeout, size_t size);
TAKES_OVER int __poll_chk(struct pollfd *files, nfds_t count, int timeout, size_t size) {
    if (size / sizeof *files < count)
        abort();
    return poll(files, count, timeout);
}

TAKES_OVER int ppoll(struct pollfd *files, nfds_t count, const struct timespec *timeout, const sigset_t *signals) {
    int ready = REAL(ppoll)(files, count, timeout, signals);
    if (ready > 0)
        add_errors(files, count);
    return ready;
}

int __ppoll_chk(
    struct pollfd *files, nfds_t count, const struct timespec *timeout, const sigset_t *signals, size_t size);
TAKES_OVER int __ppoll_chk(
    struct pollfd *files, nfds_t count, const struct timespec *timeout, const sigset_t *signals, size_t size) {
    if (size / sizeof *files < count)
        abort();
    return ppoll(files, count, timeout, signals);
}
