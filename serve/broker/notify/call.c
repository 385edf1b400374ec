#include "call.h"

#include <errno.h>
#include <fcntl.h>
#include <poll.h>
#include <stdio.h>
#include <stdlib.h>
#include <string.h>
#include <sys/ioctl.h>
#include <sys/syscall.h>
#include <sys/uio.h>
#include <unistd.h>

/* Memory is mapped by pages at least this long: what is in one can be read at once. */
#define PAGE 4096u
/* A name is looked for in so many bytes at first. */
#define SHORT_NAME 256u
/* Room for the path of a process's file in /proc. */
#define LINK_SPACE 64
/* Room for what a pipe's link says. */
#define PIPE_SPACE 48

bool call_fits(void) {
    struct seccomp_notif_sizes sizes;
    return syscall(SYS_seccomp, SECCOMP_GET_NOTIF_SIZES, 0, &sizes) == 0 && sizes.seccomp_notif <= CALL_SPACE &&
           sizes.seccomp_notif_resp <= CALL_SPACE;
}

bool call_receive(struct call *call, int listener) {
    memset(call->space, 0, sizeof call->space);
    call->listener = listener;
    call->answered = false;
    return ioctl(listener, SECCOMP_IOCTL_NOTIF_RECV, &call->notification) == 0;
}

bool call_has_callers(int listener) {
    struct pollfd shown = {.fd = listener, .events = POLLIN};
    return poll(&shown, 1, 0) <= 0 || !(shown.revents & POLLHUP);
}

bool call_is_waiting(const struct call *call) {
    return ioctl(call->listener, SECCOMP_IOCTL_NOTIF_ID_VALID, &call->notification.id) == 0;
}

uint64_t call_argument(const struct call *call, int which) {
    return call->notification.data.args[which];
}

ssize_t call_read(const struct call *call, uint64_t from, void *bytes, size_t length) {
    struct iovec here = {bytes, length};
    struct iovec there = {(void *)(uintptr_t)from, length};
    return process_vm_readv((pid_t)call->notification.pid, &here, 1, &there, 1, 0);
}

/* A process that is killed between both steps could have its number given to another one, whose memory would be
 * written to. That takes all process numbers once round within a microsecond. /proc/PID/mem would exclude it, but
 * writes to read-only memory too. */
bool call_write(const struct call *call, uint64_t to, const void *bytes, size_t length) {
    struct iovec here = {(void *)bytes, length};
    struct iovec there = {(void *)(uintptr_t)to, length};
    return call_is_waiting(call) &&
           process_vm_writev((pid_t)call->notification.pid, &here, 1, &there, 1, 0) == (ssize_t)length;
}

int call_read_name(const struct call *call, uint64_t from, char *name, size_t size) {
    size_t length = 0;
    while (length < size) {
        size_t part = PAGE - (from + length) % PAGE;
        if (length == 0 && part > SHORT_NAME)
            part = SHORT_NAME;
        if (part > size - length)
            part = size - length;
        ssize_t got = call_read(call, from + length, name + length, part);
        if (got <= 0)
            return got < 0 ? errno : EFAULT;
        if (memchr(name + length, 0, (size_t)got))
            return 0;
        length += (size_t)got;
    }
    return ENAMETOOLONG;
}

bool call_file_text(const struct call *call, int file, char *text, size_t size) {
    char link[LINK_SPACE];
    snprintf(link, sizeof link, "/proc/%u/fd/%d", call->notification.pid, file);
    ssize_t length = readlink(link, text, size - 1);
    text[length > 0 ? length : 0] = 0;
    return length > 0;
}

uint64_t call_pipe_of(const struct call *call, int file) {
    static const char front[] = "pipe:[";
    char text[PIPE_SPACE];
    if (!call_file_text(call, file, text, sizeof text) || strncmp(text, front, sizeof front - 1) != 0)
        return 0;
    return strtoull(text + sizeof front - 1, NULL, 10);
}

static void send_response(struct call *call, int64_t result, int error, uint32_t flags) {
    union {
        struct seccomp_notif_resp response;
        unsigned char space[CALL_SPACE];
    } sent;
    if (call->answered)
        return;
    call->answered = true;
    memset(&sent, 0, sizeof sent);
    sent.response.id = call->notification.id;
    sent.response.val = result;
    sent.response.error = -error;
    sent.response.flags = flags;
    ioctl(call->listener, SECCOMP_IOCTL_NOTIF_SEND, &sent.response);
}

void call_return(struct call *call, int64_t result) {
    send_response(call, result, 0, 0);
}

void call_fail(struct call *call, int error) {
    send_response(call, 0, error, 0);
}

void call_return_bytes(struct call *call, uint64_t to, const void *bytes, size_t length) {
    if (call->answered || call_write(call, to, bytes, length))
        call_return(call, 0);
    else
        call_fail(call, EFAULT);
}

void call_continue(struct call *call) {
    send_response(call, 0, 0, SECCOMP_USER_NOTIF_FLAG_CONTINUE);
}

/* Gives the program a copy of a file, with the lowest free number. The number, or -1 with errno. */
static int give_file(const struct call *call, int file, int flags, uint32_t how) {
    struct seccomp_notif_addfd added = {.id = call->notification.id,
        .flags = how,
        .srcfd = (uint32_t)file,
        .newfd_flags = (uint32_t)(flags & O_CLOEXEC)};
    return ioctl(call->listener, SECCOMP_IOCTL_NOTIF_ADDFD, &added);
}

/* The copy and the answer are one step: a program that is killed has none of both. */
void call_return_file(struct call *call, int file, int flags) {
    if (call->answered)
        return;
    if (give_file(call, file, flags, SECCOMP_ADDFD_FLAG_SEND) >= 0)
        call->answered = true;
    else
        call_fail(call, errno);
}

/* Gives the program a request's file, and writes its number to its place in the structure. That the place can be
 * written to is tried first, with what stands there. */
static void give_request(struct call *call, uint64_t place, int file) {
    int32_t number;
    if (call_read(call, place, &number, sizeof number) != (ssize_t)sizeof number ||
        !call_write(call, place, &number, sizeof number)) {
        call_fail(call, EFAULT);
        return;
    }
    number = give_file(call, file, O_CLOEXEC, 0);
    if (number < 0)
        call_fail(call, errno);
    else
        call_return_bytes(call, place, &number, sizeof number);
}

/* Gives the program a chip's file, which is marked as the library would mark it. */
static void give_chip(struct call *call, int file) {
    int access = call->flags & O_ACCMODE;
    int marks = (access != O_WRONLY ? WIRE_READS : 0) | (access != O_RDONLY ? WIRE_WRITES : 0);
    fcntl(file, F_SETFL, marks | (call->flags & O_NONBLOCK));
    call_return_file(call, file, call->flags);
}

void call_respond(struct call *call, const struct answer *answer, const void *data, int file) {
    if (answer->found < 0)
        call_continue(call);
    else if (answer->error)
        call_fail(call, answer->error);
    else if (call->task == CALL_OPEN_CHIP)
        give_chip(call, file);
    else if (file >= 0)
        give_request(call, call->structure + answer->fd_at, file);
    else if (answer->length > 0)
        call_return_bytes(call, call->structure, data, answer->length);
    else
        call_return(call, 0);
}
