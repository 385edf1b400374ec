/* Threads and signals. */
#include <errno.h>
#include <pthread.h>
#include <signal.h>
#include <string.h>
#include <sys/time.h>
#include <sys/wait.h>
#include <unistd.h>

#include "check.h"

static void *set_and_get(void *argument) {
    int held = *(int *)argument;
    for (uintptr_t turn = 0; turn < 200; turn++)
        if (set_values(held, turn & 1, 1) || values(held, 1) != (long)(turn & 1))
            return "wrong";
    return NULL;
}

static void test_together(void) {
    pthread_t threads[6];
    int held[6];
    bool good = true;
    test("six threads at once, each with a line of its own");
    for (int i = 0; i < 6; i++) {
        held[i] = request((uint32_t)i, GPIO_V2_LINE_FLAG_OUTPUT);
        good = pthread_create(&threads[i], NULL, set_and_get, &held[i]) == 0 && good;
    }
    for (int i = 0; i < 6; i++) {
        void *wrong;
        good = pthread_join(threads[i], &wrong) == 0 && !wrong && good;
        close(held[i]);
    }
    CHECK(good);
}

static void *read_one(void *argument) {
    struct gpio_v2_line_event event;
    return read(*(int *)argument, &event, sizeof event) == sizeof event ? "read" : NULL;
}

static void test_reader(void) {
    pthread_t reader;
    void *got = NULL;
    int held = request_edges(1);
    test("a thread waits for an event while another one goes on");
    CHECK(pthread_create(&reader, NULL, read_one, &held) == 0);
    pause_for(30);
    CHECK(values(held, 1) == 0 && pull(1, true));
    CHECK(pthread_join(reader, &got) == 0 && got && pull(1, false));
    close(held);
}

/* (the sanitizer of addresses takes the stack that a cancelled thread leaves for a fault of its own) */
#ifndef __SANITIZE_ADDRESS__
static void test_cancel(void) {
    pthread_t reader;
    void *got = NULL;
    int held = request_edges(2);
    test("a thread that waits for an event can be cancelled");
    CHECK(pthread_create(&reader, NULL, read_one, &held) == 0);
    pause_for(30);
    CHECK(pthread_cancel(reader) == 0 && pthread_join(reader, &got) == 0 && got == PTHREAD_CANCELED);
    CHECK(values(held, 1) == 0);
    close(held);
}
#endif

static volatile sig_atomic_t signalled;
static int signal_file;

static void on_signal(int number) {
    (void)number;
    signalled = values(signal_file, 1) >= 0 ? 1 : 2;
}

static void test_signal(void) {
    struct gpio_v2_line_event event;
    const struct itimerval often = {{0, 200000}, {0, 200000}}, never = {{0, 0}, {0, 0}};
    struct sigaction action, before;
    int held = request_edges(1);
    test("a signal ends a read that waits, and its handler may ask too");
    memset(&action, 0, sizeof action);
    action.sa_handler = on_signal;
    sigaction(SIGALRM, &action, &before);
    signal_file = held;
    setitimer(ITIMER_REAL, &often, NULL);
    CHECK_ERROR(read(held, &event, sizeof event), EINTR);
    setitimer(ITIMER_REAL, &never, NULL);
    CHECK(signalled == 1);
    sigaction(SIGALRM, &before, NULL);
    close(held);
}

static void *fork_often(void *argument) {
    int held = *(int *)argument;
    for (int turn = 0; turn < 20; turn++) {
        pid_t child = fork();
        if (child == 0)
            _exit(values(held, 1) < 0);
        if (end_of(child) != 0)
            return "wrong";
    }
    return NULL;
}

static void test_fork_beside(void) {
    pthread_t forker, worker;
    void *first, *second;
    int held = request(1, GPIO_V2_LINE_FLAG_OUTPUT), other = request(2, GPIO_V2_LINE_FLAG_OUTPUT);
    test("a thread forks while another one asks");
    CHECK(pthread_create(&forker, NULL, fork_often, &held) == 0);
    CHECK(pthread_create(&worker, NULL, set_and_get, &other) == 0);
    CHECK(pthread_join(forker, &first) == 0 && !first);
    CHECK(pthread_join(worker, &second) == 0 && !second);
    close(held);
    close(other);
}

void test_threads(void) {
    test_together();
    test_reader();
#ifndef __SANITIZE_ADDRESS__
    test_cancel();
#endif
    test_signal();
    test_fork_beside();
}
