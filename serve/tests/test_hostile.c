/* Clients that keep to no rule: they speak to the socket past the library, or ask for more than there is. */
#include <errno.h>
#include <fcntl.h>
#include <poll.h>
#include <signal.h>
#include <stdio.h>
#include <string.h>
#include <sys/ioctl.h>
#include <sys/socket.h>
#include <sys/stat.h>
#include <unistd.h>

#include "check.h"
#include "raw.h"

/* More than the machine has open files (256), and than the broker takes connections (512). */
#define MANY_FILES 300
#define MANY_CONNECTIONS 600

static struct raw raw;

/* The number of the pipe that stands for a file. */
static uint64_t ino_of(int file) {
    struct stat status;
    return fstat(file, &status) ? 0 : status.st_ino;
}

/* Whether a packet ends its connection. */
static bool ends(const struct question *question, size_t head, size_t length) {
    static const unsigned char data[WIRE_DATA + 1];
    int connection = raw_connect();
    bool sent = head == sizeof *question ? raw_send(connection, question, data, length)
                                         : send(connection, question, head, MSG_NOSIGNAL) == (ssize_t)head;
    raw_receive(connection, &raw);
    close(connection);
    return sent && raw.length == 0;
}

static void test_lengths(void) {
    const size_t whole = sizeof(struct question);
    test("a question that says another length than it has ends its connection");
    CHECK(ends(&(struct question){.op = WIRE_SAY, .length = 1}, whole, 0));
    CHECK(ends(&(struct question){.op = WIRE_SAY, .length = 10}, whole, 9));
    CHECK(ends(&(struct question){.op = WIRE_SAY, .length = 10}, whole, 11));
    CHECK(ends(&(struct question){.op = WIRE_IOCTL, .length = UINT32_MAX}, whole, 100));
    CHECK(ends(&(struct question){.op = WIRE_SAY, .length = WIRE_DATA + 1}, whole, WIRE_DATA + 1));
    CHECK(ends(&(struct question){.op = WIRE_WHOSE, .zero = 1}, whole, 0));
    CHECK(ends(&(struct question){.op = WIRE_WHOSE}, whole - 1, 0));
    CHECK(ends(&(struct question){.op = WIRE_WHOSE}, 1, 0));
    CHECK(say("gpiodetect"));
}

static void test_cut_off(void) {
    const struct question question = {.op = WIRE_OPEN};
    test("a connection that ends in the midst of a question takes nothing with it");
    for (int turn = 0; turn < 100; turn++) {
        int connection = raw_connect();
        CHECK(connection >= 0 && raw_send(connection, &question, NULL, 0));
        close(connection);
    }
    int connection = raw_connect();
    CHECK(raw_send(connection, &question, NULL, 0) && shutdown(connection, SHUT_WR) == 0);
    raw_receive(connection, &raw);
    CHECK(raw.length == sizeof raw.head && raw.head.error == 0 && raw.file >= 0);
    close(raw.file);
    close(connection);
}

static void test_sent_files(void) {
    int connection = raw_connect(), pipes[2];
    const struct question question = {.op = WIRE_WHOSE, .ino = 1};
    test("files that come with a question are kept by nobody");
    CHECK(pipe(pipes) == 0 && raw_send_files(connection, &question, pipes[0], RAW_FILES));
    close(pipes[0]);
    raw_receive(connection, &raw);
    CHECK(raw.length == sizeof raw.head && raw.head.found == -1);
    signal(SIGPIPE, SIG_IGN);
    CHECK_ERROR(write(pipes[1], "a", 1), EPIPE);
    signal(SIGPIPE, SIG_DFL);
    close(pipes[1]);
    close(connection);
}

/* Asks for a line by a connection, and waits until the answer is there, which it doesn't take. */
static bool ask_for_line(int connection, int chip, uint32_t line) {
    struct gpio_v2_line_request asked = {.offsets = {line}, .num_lines = 1, .config.flags = GPIO_V2_LINE_FLAG_INPUT};
    struct question question = {
        .op = WIRE_IOCTL, .command = GPIO_V2_GET_LINE_IOCTL, .ino = ino_of(chip), .length = sizeof asked};
    return raw_send(connection, &question, &asked, sizeof asked) && polled(connection, WAIT_MOST) == POLLIN;
}

static void check_free(uint32_t line) {
    int held = request(line, GPIO_V2_LINE_FLAG_INPUT);
    CHECK(held >= 0);
    close(held);
}

static int ask_and_be_killed(int chip) {
    if (ask_for_line(raw_connect(), chip, 6))
        raise(SIGKILL);
    return 1;
}

static void test_untaken(void) {
    int chip = open_chip(0), connection = raw_connect();
    test("a request whose answer nobody takes leaves the line free");
    CHECK(ask_for_line(connection, chip, 6));
    CHECK_ERROR(request(6, GPIO_V2_LINE_FLAG_INPUT), EBUSY);
    close(connection);
    check_free(6);
    CHECK(end_of(run_child(ask_and_be_killed, chip)) == -1);
    check_free(6);
    close(chip);
}

static int take_answer(int connection) {
    raw_receive(connection, &raw);
    return !(raw.file >= 0 && values(raw.file, 1) == 0 && request(6, GPIO_V2_LINE_FLAG_INPUT) < 0 && errno == EBUSY);
}

static void test_forked(void) {
    int chip = open_chip(0), connection = raw_connect();
    test("a child takes the answer to what its parent asked, and the parent asks on");
    CHECK(ask_for_line(connection, chip, 6));
    CHECK(end_of(run_child(take_answer, connection)) == 0);
    check_free(6);
    CHECK(raw_ask(connection, WIRE_WHOSE, ino_of(chip)) == 0);
    close(connection);
    close(chip);
}

static void test_deaf(void) {
    const struct question question = {.op = WIRE_WHOSE};
    int connection = raw_connect(), sent = 0;
    test("a client that takes no answer is left, and others are answered");
    while (sent < 100000 && raw_send(connection, &question, NULL, 0))
        sent++;
    CHECK(sent < 100000 && errno == EPIPE);
    check_free(6);
    close(connection);
}

static void test_many_files(void) {
    struct gpiochip_info info;
    int files[MANY_FILES], opened = 0, good = 0;
    test("300 files of one program: as many as there are, and then EMFILE");
    while (opened < MANY_FILES && (files[opened] = open_chip(0)) >= 0)
        opened++;
    CHECK(opened > 200 && opened < MANY_FILES && errno == EMFILE);
    CHECK_ERROR(request(6, GPIO_V2_LINE_FLAG_INPUT), EMFILE);
    for (int i = 0; i < opened; i++)
        good += ioctl(files[i], GPIO_GET_CHIPINFO_IOCTL, &info) == 0;
    CHECK(good == opened);
    for (int i = 0; i < opened; i++)
        close(files[i]);
    check_free(6);
}

static void test_many_connections(void) {
    int connections[MANY_CONNECTIONS];
    test("600 connections that ask: as many as are taken, and the others are ended");
    for (int i = 0; i < MANY_CONNECTIONS; i++) {
        CHECK((connections[i] = raw_connect()) >= 0);
        CHECK(raw_ask(connections[i], WIRE_READ, 0) == (i < 500 ? 0 : -1) || (i >= 500 && i < 520));
    }
    CHECK(raw_ask(connections[0], WIRE_WHOSE, 0) == 0 && raw_ask(connections[400], WIRE_WHOSE, 0) == 0);
    check_free(6);
    for (int i = 0; i < MANY_CONNECTIONS; i++)
        close(connections[i]);
}

static void test_idle_connections(void) {
    int connections[MANY_CONNECTIONS];
    test("of 600 connections that only asked whose a file is, the oldest make room");
    for (int i = 0; i < MANY_CONNECTIONS; i++) {
        CHECK((connections[i] = raw_connect()) >= 0);
        CHECK(raw_ask(connections[i], WIRE_WHOSE, 0) == 0);
    }
    CHECK(raw_ask(connections[0], WIRE_WHOSE, 0) == -1);
    CHECK(raw_ask(connections[MANY_CONNECTIONS - 1], WIRE_WHOSE, 0) == 0);
    check_free(6);
    for (int i = 0; i < MANY_CONNECTIONS; i++)
        close(connections[i]);
}

/* Reads from a pipe of its own, of which the library asks whose it is; and then from another one, up to its end. */
static int read_own_pipe(int last) {
    char byte;
    int own[2];
    return !(pipe(own) == 0 && write(own[1], "a", 1) == 1 && read(own[0], &byte, 1) == 1 && read(last, &byte, 1) == 0);
}

static int work_beside(int chip) {
    struct gpiochip_info info;
    check_free(6);
    return ioctl(chip, GPIO_GET_CHIPINFO_IOCTL, &info) != 0;
}

/* A child that does without the end of a pipe that its parent keeps. */
static pid_t run_without(int end, int (*work)(int), int argument) {
    fflush(stdout);
    pid_t child = fork();
    if (child == 0) {
        close(end);
        _exit(work(argument));
    }
    return child;
}

static void test_many_readers(void) {
    pid_t readers[MANY_CONNECTIONS];
    int last[2], chip = open_chip(0);
    test("600 processes that read a pipe of their own leave room for one that asks");
    CHECK(pipe(last) == 0);
    for (int i = 0; i < MANY_CONNECTIONS; i++)
        CHECK((readers[i] = run_without(last[1], read_own_pipe, last[0])) > 0);
    for (int i = 0; i < 20; i++)
        CHECK(end_of(run_child(work_beside, chip)) == 0);
    close(last[1]);
    for (int i = 0; i < MANY_CONNECTIONS; i++)
        CHECK(end_of(readers[i]) == 0);
    CHECK(end_of(run_child(work_beside, chip)) == 0);
    close(last[0]);
    close(chip);
}

void test_hostile(void) {
    int before = raw_count_of_broker();
    test_lengths();
    test_cut_off();
    test_sent_files();
    test_untaken();
    test_forked();
    test_deaf();
    test_many_files();
    test_many_connections();
    test_idle_connections();
    test_many_readers();
    test("nothing of all that is left behind");
    CHECK(before > 0 && raw_count_of_broker() == before);
}

/* Reads an event of a line by a request that shows it, and then nothing. */
static void check_event(int held, bool up) {
    struct gpio_v2_line_event event;
    CHECK(polled(held, 0) == 0 && pull(1, up) && polled(held, WAIT_MOST) == POLLIN);
    CHECK(read(held, &event, sizeof event) == sizeof event && polled(held, 0) == 0);
}

/* Where the broker has few numbers of files. */
/* A connection once the broker has seen what was closed before, in which it may be behind; -1 after many tries. */
static int connect_again(void) {
    for (int turn = 0; turn < 3000; turn++) {
        int connection = raw_connect();
        if (raw_ask(connection, WIRE_WHOSE, 0) == 0)
            return connection;
        close(connection);
        pause_for(10);
    }
    return -1;
}

void test_crowd(void) {
    int files[MANY_FILES], connections[2], opened = 0, held = request_edges(1);
    test("where the broker has no number left, files are refused and connections ended");
    check_event(held, true);
    while (opened < MANY_FILES && (files[opened] = open_chip(0)) >= 0)
        opened++;
    CHECK(opened > 5 && errno == EMFILE);
    /* (a file takes two for a moment, so one may be left) */
    for (int i = 0; i < 2; i++) {
        CHECK((connections[i] = raw_connect()) >= 0);
        CHECK(raw_ask(connections[i], WIRE_READ, 0) == 0 || i > 0);
    }
    CHECK(raw_ask(connections[1], WIRE_WHOSE, 0) == -1);
    test("a file that was read shows nothing, also where the broker has no number left");
    check_event(held, false);
    close(held);
    for (int i = 0; i < opened; i++)
        close(files[i]);
    close(connections[1]);
    connections[1] = connect_again();
    CHECK(connections[1] >= 0);
    for (int i = 0; i < 2; i++)
        close(connections[i]);
    check_free(6);
}

/* Ends at once with the event that it waits for. */
int test_reading(void) {
    struct gpio_v2_line_event event;
    int held = request_edges(1);
    return held < 0 || read(held, &event, sizeof event) != (ssize_t)sizeof event;
}

/* Waits for an event until nobody answers any more, and says what it was told then. */
int test_waiting(void) {
    struct gpio_v2_line_event event;
    int held = request_edges(1);
    if (held < 0 || puts("begun") < 0 || fflush(stdout))
        return 1;
    ssize_t got = read(held, &event, sizeof event);
    printf("read: %s\n", got < 0 ? strerror(errno) : "an event");
    printf("open: %s\n", open_chip(0) < 0 ? strerror(errno) : "a chip");
    return 0;
}
