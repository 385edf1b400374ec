/* Sends packets of all kinds to the broker's socket: fuzz [PACKETS [SEED]]. What comes back has to be an answer of its
 * form, and at the end the broker has to serve as before. */
#include <stdbool.h>
#include <stdint.h>
#include <stdio.h>
#include <stdlib.h>
#include <string.h>
#include <sys/socket.h>
#include <sys/stat.h>
#include <unistd.h>

#include "raw.h"

#define FILES 64

static const uint32_t commands[] = {0x8044b401, 0xc100b405, 0xc100b406, 0xc004b40c, 0xc250b407, 0xc110b40d, 0xc010b40e,
    0xc010b40f, 0xc048b402, 0xc16cb403, 0xc030b404, 0xc040b408, 0xc040b409, 0xc054b40a, 0xc048b40b};
static const uint32_t lengths[] = {68, 256, 256, 4, 592, 272, 16, 16, 72, 364, 48, 64, 64, 84, 72};

static const char *const statements[] = {"write gpiochip0/sim_gpio1/pull pull-up",
    "write gpiochip0/sim_gpio1/pull pull-down", "read gpiochip0/sim_gpio1/value", "gpioinfo -c 0", "gpioget -c 0 5",
    "fault 2", "poll chip.1", "close chip.1", "probe x 1", "open mine 0", "close mine", "start m gpiomon -c 0 6",
    "step m 1", "stop m", "irq lock 0 7", "irq unlock 0 7", "clock 1 1", "data chip.1 100", "due", "#", "",
    "write board/live 0", "write board/live 1", "unplug gpiochip0", "setup", "session 1"};

static uint64_t state;

static uint32_t random_below(uint32_t bound) {
    state ^= state << 13;
    state ^= state >> 7;
    state ^= state << 17;
    return (uint32_t)(state >> 16) % bound;
}

static void random_bytes(unsigned char *bytes, size_t length) {
    for (size_t i = 0; i < length; i++)
        bytes[i] = (unsigned char)random_below(256);
}

/* Files that came with answers, so that questions can be of them. */
static struct {
    int file;
    uint64_t ino;
} files[FILES];
static size_t file_count;

static void keep_file(int file) {
    struct stat status;
    if (fstat(file, &status)) {
        close(file);
        return;
    }
    if (file_count == FILES) {
        size_t gone = random_below(FILES);
        close(files[gone].file);
        files[gone] = files[--file_count];
    }
    files[file_count].file = file;
    files[file_count++].ino = status.st_ino;
}

/* Takes an answer. 0; or -1 where the connection is at its end, and 1 where what came is no answer. */
static int take_answer(int connection) {
    static struct raw raw;
    raw_receive(connection, &raw);
    if (raw.length <= 0)
        return -1;
    if (raw.file >= 0 && raw.head.in_file)
        close(raw.file);
    else if (raw.file >= 0)
        keep_file(raw.file);
    bool whole = raw.head.in_file || (size_t)raw.length == sizeof raw.head + raw.head.length;
    return raw.length >= (long)sizeof raw.head && whole && raw.head.error >= 0 && raw.head.error < 200 ? 0 : 1;
}

/* Makes a command on a file: often one that is right, of which some bytes are changed. */
static void make_ioctl(struct question *question, unsigned char *data) {
    size_t which = random_below(sizeof commands / sizeof *commands);
    question->command = random_below(10) ? commands[which] : random_below(UINT32_MAX);
    question->length = random_below(4) ? lengths[which] : random_below(2000);
    memset(data, 0, question->length);
    if (random_below(3) == 0)
        random_bytes(data, question->length);
    if (question->length >= 592) {
        data[0] = (unsigned char)random_below(8);
        data[560] = 1;
        data[288] = random_below(2) ? 4 : 0x34;
    }
    for (uint32_t i = random_below(4); i > 0 && question->length > 0; i--)
        data[random_below(question->length)] = (unsigned char)random_below(256);
}

static void make_say(struct question *question, unsigned char *data) {
    const char *statement = statements[random_below(sizeof statements / sizeof *statements)];
    question->length = (uint32_t)strlen(statement);
    /* (chips go seldom, and only late in a run) */
    if (strncmp(statement, "unplug", 6) == 0 && random_below(400))
        question->length = 3;
    memcpy(data, statement, question->length);
    if (random_below(8) == 0) {
        question->length = random_below(2) ? random_below(9000) : random_below(40);
        random_bytes(data, question->length);
    } else if (random_below(8) == 0 && question->length > 0) {
        data[random_below(question->length)] = (unsigned char)random_below(256);
    }
}

static void make_question(struct question *question, unsigned char *data) {
    memset(question, 0, sizeof *question);
    question->op = 1 + random_below(5);
    question->ino =
        file_count && random_below(10) ? files[random_below((uint32_t)file_count)].ino : random_below(UINT32_MAX);
    question->command = random_below(3) ? random_below(3) : random_below(UINT32_MAX);
    if (question->op == WIRE_IOCTL)
        make_ioctl(question, data);
    else if (question->op == WIRE_SAY)
        make_say(question, data);
    else if (question->op == WIRE_READ)
        question->command = random_below(4) ? random_below(60000) : random_below(UINT32_MAX);
    if (random_below(50) == 0)
        question->op = random_below(UINT32_MAX);
}

/* A file to send along: one of this program's own, one that came from the broker, or the connection itself. */
static int foreign_file(int connection) {
    static int own[4] = {-1};
    if (own[0] < 0 && (pipe(own) || socketpair(AF_UNIX, SOCK_STREAM, 0, own + 2)))
        return connection;
    unsigned which = random_below(6);
    if (which == 4 && file_count > 0)
        return files[random_below((uint32_t)file_count)].file;
    return which < 4 ? own[which] : connection;
}

/* Sends one packet: whether it is a question, which is answered. */
static bool send_one(int connection, unsigned char *packet, bool *sent) {
    struct question question;
    make_question(&question, packet + sizeof question);
    size_t length = sizeof question + question.length;
    bool right = true;
    if (random_below(40) == 0) {
        right = false;
        switch (random_below(3)) {
        case 0:
            length = random_below(sizeof question);
            break;
        case 1:
            question.length += 1 + random_below(UINT32_MAX - 1);
            break;
        default:
            question.zero = 1 + random_below(1000);
        }
    }
    memcpy(packet, &question, sizeof question);
    if (right && question.length == 0 && random_below(10) == 0) {
        *sent = raw_send_files(connection, &question, foreign_file(connection), 1 + random_below(RAW_FILES));
        return true;
    }
    *sent = send(connection, packet, length, MSG_NOSIGNAL) == (ssize_t)length;
    return right;
}

/* Sends a packet, and takes its answer. False where that was none. */
static bool turn(int *connection, unsigned char *packet) {
    bool sent;
    if (*connection < 0)
        *connection = raw_connect();
    if (*connection < 0)
        return false;
    bool right = send_one(*connection, packet, &sent);
    int took = sent && random_below(500) ? take_answer(*connection) : -1;
    if (took < 0 || !right) {
        close(*connection);
        *connection = -1;
    }
    return took <= 0;
}

/* Sends several packets at once, and takes their answers then. False where one was none. */
static bool pipeline(int *connection, unsigned char *packet) {
    bool sent = true, right = true;
    unsigned asked = 0;
    if (*connection < 0)
        *connection = raw_connect();
    if (*connection < 0)
        return false;
    for (unsigned count = 2 + random_below(20); count > 0 && right && sent; count--) {
        right = send_one(*connection, packet, &sent);
        asked += sent;
    }
    int took = sent ? 0 : -1;
    while (asked-- > 0 && took == 0)
        took = take_answer(*connection);
    if (took != 0 || !right) {
        close(*connection);
        *connection = -1;
    }
    return took <= 0;
}

static bool still_serves(void) {
    static const char statement[] = "gpiodetect";
    const struct question question = {.op = WIRE_SAY, .length = sizeof statement - 1};
    int connection = raw_connect();
    bool serves = connection >= 0 && raw_send(connection, &question, statement, sizeof statement - 1) &&
                  take_answer(connection) == 0;
    if (connection >= 0)
        close(connection);
    return serves;
}

int main(int count, char **arguments) {
    static unsigned char packet[sizeof(struct question) + WIRE_DATA];
    long packets = count > 1 ? atol(arguments[1]) : 100000, wrong = 0;
    int connection = -1;
    state = count > 2 ? strtoull(arguments[2], NULL, 10) : 88172645463325252u;
    for (long i = 0; i < packets; i++)
        wrong += !(random_below(20) ? turn(&connection, packet) : pipeline(&connection, packet));
    bool serves = still_serves();
    printf("%ld packets, %ld of them not answered as they should be; the broker %s\n", packets, wrong,
        serves ? "serves as before" : "no longer serves");
    return wrong > 0 || !serves;
}
