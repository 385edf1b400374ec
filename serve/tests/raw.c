#include "raw.h"

#include <dirent.h>
#include <stdio.h>
#include <stdlib.h>
#include <string.h>
#include <sys/socket.h>
#include <sys/un.h>
#include <unistd.h>

int raw_connect(void) {
    struct sockaddr_un address = {.sun_family = AF_UNIX};
    const char *folder = getenv(WIRE_VARIABLE);
    snprintf(address.sun_path, sizeof address.sun_path, "%.90s/" WIRE_SOCKET, folder ? folder : "");
    int connection = socket(AF_UNIX, SOCK_SEQPACKET | SOCK_CLOEXEC, 0);
    if (connection >= 0 && connect(connection, (struct sockaddr *)&address, sizeof address) == 0)
        return connection;
    if (connection >= 0)
        close(connection);
    return -1;
}

bool raw_send(int connection, const struct question *question, const void *data, size_t length) {
    struct iovec parts[] = {{(void *)question, sizeof *question}, {(void *)data, length}};
    struct msghdr message = {.msg_iov = parts, .msg_iovlen = length > 0 ? 2 : 1};
    return sendmsg(connection, &message, MSG_NOSIGNAL) == (ssize_t)(sizeof *question + length);
}

bool raw_send_files(int connection, const struct question *question, int file, size_t count) {
    union {
        char bytes[CMSG_SPACE(RAW_FILES * sizeof(int))];
        struct cmsghdr aligned;
    } control;
    struct iovec part = {(void *)question, sizeof *question};
    struct msghdr message = {.msg_iov = &part, .msg_iovlen = 1, .msg_control = control.bytes};
    if (count > RAW_FILES)
        return false;
    memset(&control, 0, sizeof control);
    message.msg_controllen = CMSG_SPACE(count * sizeof file);
    struct cmsghdr *head = CMSG_FIRSTHDR(&message);
    head->cmsg_level = SOL_SOCKET;
    head->cmsg_type = SCM_RIGHTS;
    head->cmsg_len = CMSG_LEN(count * sizeof file);
    for (size_t i = 0; i < count; i++)
        memcpy(CMSG_DATA(head) + i * sizeof file, &file, sizeof file);
    return sendmsg(connection, &message, MSG_NOSIGNAL) == (ssize_t)sizeof *question;
}

void raw_receive(int connection, struct raw *raw) {
    union {
        char bytes[CMSG_SPACE(sizeof(int))];
        struct cmsghdr aligned;
    } control;
    struct iovec parts[] = {{&raw->head, sizeof raw->head}, {raw->data, sizeof raw->data}};
    struct msghdr message = {
        .msg_iov = parts, .msg_iovlen = 2, .msg_control = control.bytes, .msg_controllen = sizeof control.bytes};
    memset(&raw->head, 0, sizeof raw->head);
    raw->file = -1;
    raw->length = recvmsg(connection, &message, MSG_CMSG_CLOEXEC);
    if (raw->length > 0 && CMSG_FIRSTHDR(&message))
        memcpy(&raw->file, CMSG_DATA(CMSG_FIRSTHDR(&message)), sizeof raw->file);
}

int raw_ask(int connection, enum wire_op op, uint64_t ino) {
    static struct raw raw;
    struct question question = {.op = op, .ino = ino};
    if (!raw_send(connection, &question, NULL, 0))
        return -1;
    raw_receive(connection, &raw);
    if (raw.file >= 0)
        close(raw.file);
    return raw.length < (long)sizeof raw.head ? -1 : raw.head.error;
}

pid_t raw_broker(int connection) {
    struct ucred who;
    socklen_t length = sizeof who;
    return getsockopt(connection, SOL_SOCKET, SO_PEERCRED, &who, &length) ? -1 : who.pid;
}

int raw_count_of_broker(void) {
    char path[64];
    int connection = raw_connect(), count = 0;
    raw_ask(connection, WIRE_WHOSE, 0); /* (so that all is closed there that was closed here) */
    snprintf(path, sizeof path, "/proc/%d/fd", (int)raw_broker(connection));
    DIR *folder = opendir(path);
    while (folder && readdir(folder))
        count++;
    if (folder)
        closedir(folder);
    close(connection);
    return folder ? count : -1;
}
