/* Several processes: files that are inherited, handed over, and left behind. */
#include <errno.h>
#include <fcntl.h>
#include <signal.h>
#include <stdio.h>
#include <stdlib.h>
#include <string.h>
#include <sys/socket.h>
#include <sys/wait.h>
#include <unistd.h>

#include "check.h"

static int set_inherited(int held) {
    return set_values(held, 1, 1) != 0;
}

static void test_fork(void) {
    int held = request(1, GPIO_V2_LINE_FLAG_OUTPUT);
    test("a child uses the file that it inherits");
    CHECK(end_of(run_child(set_inherited, held)) == 0);
    CHECK(values(held, 1) == 1);
    close(held);
}

/* A pipe whose writing end the parent closes once it has looked. */
static int looked[2];

static int hold_until_looked(int held) {
    char none;
    close(looked[1]);
    return read(looked[0], &none, 1) != 0 || values(held, 1) < 0;
}

static void test_left_to_child(void) {
    int held = request(1, GPIO_V2_LINE_FLAG_OUTPUT);
    test("a child keeps the lines when the parent has closed the file");
    CHECK(pipe(looked) == 0);
    pid_t child = run_child(hold_until_looked, held);
    close(looked[0]);
    close(held);
    CHECK_ERROR(request(1, GPIO_V2_LINE_FLAG_INPUT), EBUSY);
    close(looked[1]);
    CHECK(end_of(child) == 0);
    held = request(1, GPIO_V2_LINE_FLAG_INPUT);
    CHECK(held >= 0);
    close(held);
}

static int hold_for_long(int line) {
    while (request((uint32_t)line, GPIO_V2_LINE_FLAG_OUTPUT) < 0)
        pause_for(1);
    return (int)sleep(600);
}

static void test_kill(void) {
    pid_t child = run_child(hold_for_long, 2);
    int held = -1;
    test("the lines of a process that is killed are free");
    for (int turn = 0; turn < WAIT_MOST / 10; turn++) {
        held = request(2, GPIO_V2_LINE_FLAG_INPUT);
        if (held < 0)
            break;
        close(held);
        pause_for(10);
    }
    CHECK(held < 0 && errno == EBUSY);
    kill(child, SIGKILL);
    CHECK(end_of(child) == -1);
    held = request(2, GPIO_V2_LINE_FLAG_INPUT);
    CHECK(held >= 0);
    close(held);
}

int test_inherited(const char *number) {
    return values(atoi(number), 1) == 1 ? 0 : 1;
}

static void test_exec(const char *own) {
    char number[16];
    int held = request(1, GPIO_V2_LINE_FLAG_OUTPUT);
    test("a program that is started by exec uses the file that it inherits");
    CHECK(set_values(held, 1, 1) == 0 && fcntl(held, F_SETFD, 0) == 0);
    snprintf(number, sizeof number, "%d", held);
    fflush(stdout);
    pid_t child = fork();
    if (child == 0) {
        execl(own, own, "--inherited", number, (char *)NULL);
        _exit(9);
    }
    CHECK(end_of(child) == 0);
    close(held);
}

static bool send_file(int socket, int file) {
    union {
        char bytes[CMSG_SPACE(sizeof(int))];
        struct cmsghdr aligned;
    } control;
    struct iovec part = {"f", 1};
    struct msghdr message = {
        .msg_iov = &part, .msg_iovlen = 1, .msg_control = control.bytes, .msg_controllen = sizeof control.bytes};
    memset(&control, 0, sizeof control);
    struct cmsghdr *head = CMSG_FIRSTHDR(&message);
    head->cmsg_level = SOL_SOCKET;
    head->cmsg_type = SCM_RIGHTS;
    head->cmsg_len = CMSG_LEN(sizeof file);
    memcpy(CMSG_DATA(head), &file, sizeof file);
    return sendmsg(socket, &message, 0) == 1;
}

static int receive_file(int socket) {
    union {
        char bytes[CMSG_SPACE(sizeof(int))];
        struct cmsghdr aligned;
    } control;
    char byte;
    int file = -1;
    struct iovec part = {&byte, 1};
    struct msghdr message = {
        .msg_iov = &part, .msg_iovlen = 1, .msg_control = control.bytes, .msg_controllen = sizeof control.bytes};
    if (recvmsg(socket, &message, 0) == 1 && CMSG_FIRSTHDR(&message))
        memcpy(&file, CMSG_DATA(CMSG_FIRSTHDR(&message)), sizeof file);
    return file;
}

static int request_and_send(int socket) {
    int held = request(3, GPIO_V2_LINE_FLAG_OUTPUT);
    return !(set_values(held, 1, 1) == 0 && send_file(socket, held));
}

static void test_handed_over(void) {
    int ends[2];
    test("a file that another process hands over is used");
    CHECK(socketpair(AF_UNIX, SOCK_STREAM, 0, ends) == 0);
    CHECK(end_of(run_child(request_and_send, ends[0])) == 0);
    int held = receive_file(ends[1]);
    CHECK(held >= 0 && values(held, 1) == 1);
    CHECK_ERROR(request(3, GPIO_V2_LINE_FLAG_INPUT), EBUSY);
    close(held);
    close(ends[0]);
    close(ends[1]);
}

static int work_on_line(int line) {
    for (int turn = 0; turn < 50; turn++) {
        int held = request((uint32_t)line, GPIO_V2_LINE_FLAG_OUTPUT);
        if (held < 0 || set_values(held, turn & 1, 1) || values(held, 1) != (turn & 1))
            return 1;
        close(held);
    }
    return 0;
}

static void test_at_once(void) {
    pid_t children[8];
    bool good = true;
    test("eight processes at once, each with a line of its own");
    for (int i = 0; i < 8; i++)
        children[i] = run_child(work_on_line, i);
    for (int i = 0; i < 8; i++)
        good = end_of(children[i]) == 0 && good;
    CHECK(good);
}

static int ask_for_ever(int line) {
    for (;;) {
        int held = request((uint32_t)line, GPIO_V2_LINE_FLAG_OUTPUT);
        set_values(held, 1, 1);
        pull((unsigned)line, true);
        close(held);
    }
    return 0;
}

void test_killed_midway(void) {
    pid_t children[4];
    bool free = true;
    test("processes that are killed in the midst of a question leave nothing behind");
    for (int turn = 0; turn < 20; turn++) {
        for (int i = 0; i < 4; i++)
            children[i] = run_child(ask_for_ever, i);
        pause_for(5 + (unsigned)turn % 7);
        for (int i = 0; i < 4; i++)
            kill(children[i], SIGKILL);
        for (int i = 0; i < 4; i++)
            end_of(children[i]);
    }
    for (uint32_t line = 0; line < 8; line++) {
        int held = request(line, GPIO_V2_LINE_FLAG_INPUT);
        free = free && held >= 0;
        close(held);
        pull(line, false);
    }
    CHECK(free);
}

static int close_all_and_go_on(int line) {
    int held = request((uint32_t)line, GPIO_V2_LINE_FLAG_OUTPUT);
    for (int file = 3; file < 1024; file++)
        if (file != held)
            close(file);
    return !(set_values(held, 1, 1) == 0 && values(held, 1) == 1 && request((uint32_t)line, 0) < 0 && errno == EBUSY);
}

static void test_daemon(void) {
    test("a daemon that closes all files that it doesn't know goes on");
    CHECK(end_of(run_child(close_all_and_go_on, 1)) == 0);
}

void test_processes(const char *own) {
    test_fork();
    test_left_to_child();
    test_kill();
    test_exec(own);
    test_handed_over();
    test_at_once();
    test_daemon();
}
