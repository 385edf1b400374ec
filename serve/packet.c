#include "packet.h"

#include <errno.h>
#include <string.h>
#include <sys/socket.h>
#include <sys/syscall.h>
#include <unistd.h>

/* Takes the file that came with a message; -1 where none did. */
static int file_of(struct msghdr *message) {
    int file = -1;
    struct cmsghdr *head = CMSG_FIRSTHDR(message);
    if (head && head->cmsg_level == SOL_SOCKET && head->cmsg_type == SCM_RIGHTS &&
        head->cmsg_len == CMSG_LEN(sizeof file))
        memcpy(&file, CMSG_DATA(head), sizeof file);
    return file;
}

/* (the system calls are made directly, since libgpioserve.so takes over functions of the C library) */
long packet_receive(int socket, struct packet *packet, bool cloexec) {
    union {
        char bytes[CMSG_SPACE(sizeof(int))];
        struct cmsghdr aligned;
    } control;
    struct iovec parts[] = {{packet->answer, sizeof *packet->answer}, {packet->data, packet->room}};
    struct msghdr message = {.msg_iov = parts,
        .msg_iovlen = packet->room > 0 ? 2 : 1,
        .msg_control = control.bytes,
        .msg_controllen = sizeof control.bytes};
    long length;
    packet->file = -1;
    packet->is_cut = false;
    do
        length = syscall(SYS_recvmsg, socket, &message, cloexec ? MSG_CMSG_CLOEXEC : 0);
    while (length < 0 && errno == EINTR);
    if (length < 0)
        return -1;
    packet->file = file_of(&message);
    packet->is_cut = message.msg_flags & MSG_CTRUNC;
    if (length >= (long)sizeof *packet->answer)
        return length;
    if (packet->file >= 0)
        syscall(SYS_close, packet->file);
    packet->file = -1;
    return 0;
}
