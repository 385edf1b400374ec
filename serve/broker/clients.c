#include "clients.h"

#include <errno.h>
#include <fcntl.h>
#include <stdio.h>
#include <stdlib.h>
#include <string.h>
#include <sys/socket.h>
#include <sys/un.h>
#include <unistd.h>

#include "clock.h"
#include "notify/call.h"
#include "observers.h"
#include "report.h"
#include "spare.h"

/* Nanoseconds from which on an answer is costly. */
#define COSTLY (2 * CLOCK_MILLISECOND)

bool clients_listen(struct clients *clients, const char *folder) {
    struct sockaddr_un address = {.sun_family = AF_UNIX};
    memset(clients, 0, sizeof *clients);
    clients->listener = (struct watch){WATCH_LISTENER, -1, NULL};
    int length = snprintf(address.sun_path, sizeof address.sun_path, "%s/%s", folder, WIRE_SOCKET);
    if (length < 0 || (size_t)length >= sizeof address.sun_path) {
        report("the path %s/%s is too long for a socket", folder, WIRE_SOCKET);
        return false;
    }
    int listener = socket(AF_UNIX, SOCK_SEQPACKET | SOCK_CLOEXEC | SOCK_NONBLOCK, 0);
    if (listener >= 0 && bind(listener, (struct sockaddr *)&address, sizeof address) == 0 &&
        listen(listener, 128) == 0) {
        clients->listener.number = listener;
        return true;
    }
    report("there can be no socket %s: %s", address.sun_path, strerror(errno));
    if (listener >= 0)
        close(listener);
    return false;
}

/* Takes a connection for which there is no number left by the spare one, and ends it: the listener would show it
 * without end. */
static void turn_away(const struct clients *clients) {
    spare_lend();
    int number = accept4(clients->listener.number, NULL, NULL, SOCK_CLOEXEC | SOCK_NONBLOCK);
    if (number >= 0)
        close(number);
    spare_take();
}

/* Whether a question stands there that was not read. */
static bool has_question(const struct client *client) {
    char byte;
    return recv(client->watch.number, &byte, sizeof byte, MSG_PEEK | MSG_DONTWAIT) > 0;
}

/* Ends the oldest connection by which was asked nothing but whose files are. Whether there was one. */
static bool end_idle(struct clients *clients) {
    struct client *oldest = NULL;
    for (struct client *client = clients->first; client; client = client->next)
        if (!client->asks && !has_question(client))
            oldest = client;
    if (oldest)
        clients_drop(clients, oldest);
    return oldest != NULL;
}

/* The number of a new connection, or -1. */
static int accept_number(struct clients *clients) {
    int number = accept4(clients->listener.number, NULL, NULL, SOCK_CLOEXEC | SOCK_NONBLOCK);
    if (number < 0 && spare_is_wanted(errno)) {
        if (end_idle(clients))
            return accept4(clients->listener.number, NULL, NULL, SOCK_CLOEXEC | SOCK_NONBLOCK);
        turn_away(clients);
    }
    return number;
}

/* A client of the same process, or NULL. */
static const struct client *sibling_of(const struct clients *clients, pid_t pid) {
    for (const struct client *client = clients->first; client; client = client->next)
        if (client->asker.pid == pid)
            return client;
    return NULL;
}

struct client *clients_accept(struct clients *clients) {
    int number = accept_number(clients);
    if (number < 0)
        return NULL;
    struct client *client = clients->count < CLIENTS_MOST || end_idle(clients) ? calloc(1, sizeof *client) : NULL;
    if (!client) {
        close(number);
        return NULL;
    }
    client->watch = (struct watch){WATCH_CLIENT, number, client};
    client->all = clients;
    client->asker = asker_of(number);
    client->wait.kind = WAIT_NOTHING;
    client->large.file = -1;
    const struct client *sibling = sibling_of(clients, client->asker.pid);
    client->costly = sibling && sibling->costly;
    client->served = sibling ? sibling->served : 0;
    client->next = clients->first;
    clients->first = client;
    clients->count++;
    return client;
}

void clients_charge(struct client *client, uint64_t nanoseconds) {
    bool costly = nanoseconds >= COSTLY;
    if (!costly && !client->costly)
        return;
    client->all->served += costly;
    for (struct client *other = client->all->first; other; other = other->next) {
        if (other->asker.pid != client->asker.pid)
            continue;
        other->costly = costly;
        other->served = client->all->served;
    }
}

int clients_read(struct client *client, struct packet *packet) {
    struct iovec parts[] = {{&packet->question, sizeof packet->question}, {packet->data, WIRE_DATA}};
    struct msghdr message = {.msg_iov = parts, .msg_iovlen = 2};
    ssize_t got = recvmsg(client->watch.number, &message, MSG_DONTWAIT | MSG_CMSG_CLOEXEC);
    if (got < 0 && (errno == EAGAIN || errno == EINTR))
        return 0;
    if (got < (ssize_t)sizeof packet->question || (message.msg_flags & MSG_TRUNC) || packet->question.zero != 0 ||
        packet->question.length != (size_t)got - sizeof packet->question)
        return -1;
    packet->data[packet->question.length] = 0;
    client->asks = client->asks || packet->question.op != WIRE_WHOSE;
    return 1;
}

bool clients_send(struct client *client, struct answer *answer, const void *data, size_t length, int file) {
    union {
        char bytes[CMSG_SPACE(sizeof(int))];
        struct cmsghdr aligned;
    } control;
    struct iovec parts[] = {{answer, sizeof *answer}, {(void *)data, length}};
    struct msghdr message = {.msg_iov = parts, .msg_iovlen = length > 0 ? 2 : 1};
    if (file >= 0) {
        memset(&control, 0, sizeof control);
        message.msg_control = control.bytes;
        message.msg_controllen = sizeof control.bytes;
        struct cmsghdr *head = CMSG_FIRSTHDR(&message);
        head->cmsg_level = SOL_SOCKET;
        head->cmsg_type = SCM_RIGHTS;
        head->cmsg_len = CMSG_LEN(sizeof file);
        memcpy(CMSG_DATA(head), &file, sizeof file);
    }
    return sendmsg(client->watch.number, &message, MSG_NOSIGNAL | MSG_DONTWAIT) == (ssize_t)(sizeof *answer + length);
}

void clients_reply(struct client *client, struct answer *answer, const void *data, int file) {
    int error = 0;
    client->error = answer->error;
    if (client->call) {
        call_respond(client->call, answer, data, file);
        return;
    }
    if (answer->length > WIRE_DATA)
        error = large_send(client->all, client, answer, data);
    else if (!clients_send(client, answer, data, answer->length, file))
        error = EAGAIN;
    if (error == ENOMEM) {
        struct answer none = {.error = ENOMEM};
        error = clients_send(client, &none, NULL, 0, -1) ? 0 : EAGAIN;
    }
    if (error == 0)
        return;
    large_forget(client->all, client);
    shutdown(client->watch.number, SHUT_RDWR);
}

void clients_drop(struct clients *clients, struct client *client) {
    struct client **at = &clients->first;
    while (*at && *at != client)
        at = &(*at)->next;
    if (*at)
        *at = client->next;
    clients->count--;
    if (client->wait.kind != WAIT_NOTHING)
        clients->waiting--;
    observers_remove(client);
    large_forget(clients, client);
    close(client->watch.number);
    client->watch.number = -1;
    client->next = clients->ended;
    clients->ended = client;
}

void clients_bury(struct clients *clients) {
    while (clients->ended) {
        struct client *next = clients->ended->next;
        free(clients->ended);
        clients->ended = next;
    }
}

void clients_end(struct clients *clients) {
    while (clients->first)
        clients_drop(clients, clients->first);
    clients_bury(clients);
    if (clients->listener.number >= 0)
        close(clients->listener.number);
    clients->listener.number = -1;
}
