#include "say.h"

#include <errno.h>
#include <stdio.h>
#include <stdlib.h>
#include <string.h>
#include <sys/socket.h>
#include <sys/un.h>
#include <unistd.h>

#include "../packet.h"
#include "../wire.h"

int say_open(struct say *say, const char *folder) {
    struct sockaddr_un address = {.sun_family = AF_UNIX};
    memset(say, 0, sizeof *say);
    say->connection = -1;
    if (!folder)
        folder = getenv(WIRE_VARIABLE);
    if (!folder)
        return ENOENT;
    int length = snprintf(address.sun_path, sizeof address.sun_path, "%s/" WIRE_SOCKET, folder);
    if (length < 0 || (size_t)length >= sizeof address.sun_path)
        return ENAMETOOLONG;
    int connection = socket(AF_UNIX, SOCK_SEQPACKET | SOCK_CLOEXEC, 0);
    if (connection < 0)
        return errno;
    if (connect(connection, (struct sockaddr *)&address, sizeof address)) {
        int error = errno;
        close(connection);
        return error;
    }
    say->connection = connection;
    return 0;
}

static int make_room(struct say *say, size_t wanted) {
    if (wanted <= say->room)
        return 0;
    char *grown = realloc(say->text, wanted);
    if (!grown)
        return -1;
    say->text = grown;
    say->room = wanted;
    return 0;
}

static int send_statement(const struct say *say, const char *statement) {
    struct question question = {.op = WIRE_SAY};
    size_t length = strlen(statement);
    if (length > WIRE_DATA)
        return -1;
    question.length = (uint32_t)length;
    struct iovec parts[] = {{&question, sizeof question}, {(void *)statement, length}};
    struct msghdr message = {.msg_iov = parts, .msg_iovlen = 2};
    return sendmsg(say->connection, &message, MSG_NOSIGNAL) < 0 ? -1 : 0;
}

/* Reads the text of an answer for which a packet had no room. The file is closed. */
static int read_file(struct say *say, int file, size_t length) {
    size_t got = 0;
    int result = make_room(say, length + 1);
    while (result == 0 && got < length) {
        ssize_t count = pread(file, say->text + got, length - got, (off_t)got);
        if (count < 0 && errno == EINTR)
            continue;
        if (count <= 0)
            result = -1;
        else
            got += (size_t)count;
    }
    close(file);
    return result;
}

/* Takes an answer's text, whose bytes came in the packet or in a file. */
static int take_answer(struct say *say, struct answer *answer) {
    struct packet packet = {.answer = answer, .data = say->text, .room = say->room - 1};
    long got = packet_receive(say->connection, &packet, true);
    if (got <= 0)
        return -1;
    say->length = answer->length;
    if (packet.file >= 0 && answer->in_file)
        return read_file(say, packet.file, say->length);
    if (packet.file >= 0)
        close(packet.file);
    return (size_t)got - sizeof *answer == say->length ? 0 : -1;
}

int say_statement(struct say *say, const char *statement) {
    struct answer answer;
    if (say->connection < 0 || make_room(say, WIRE_DATA + 1) || send_statement(say, statement) ||
        take_answer(say, &answer))
        return -1;
    say->text[say->length] = 0;
    say->is_none = answer.found < 0;
    return answer.error;
}

bool say_waits(const char *statement) {
    static const char word[] = "wait";
    statement += strspn(statement, " ");
    return strncmp(statement, word, strlen(word)) == 0 && strchr(" ", statement[strlen(word)]);
}

void say_close(struct say *say) {
    if (say->connection >= 0)
        close(say->connection);
    free(say->text);
    memset(say, 0, sizeof *say);
    say->connection = -1;
}
