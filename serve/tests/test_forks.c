/* Children made in every way there is, each of which asks, and programs that write over their environment. */
#include <dirent.h>
#include <errno.h>
#include <pthread.h>
#include <signal.h>
#include <stdlib.h>
#include <string.h>
#include <sys/syscall.h>
#include <sys/time.h>
#include <sys/wait.h>
#include <unistd.h>

#include "check.h"

/* More than the broker takes connections (512). */
#define MANY_CHILDREN 600
/* Who hasn't ended by then never will, however busy the machine is. */
#ifndef MOST_SECONDS
#define MOST_SECONDS 600
#endif

static int asked_file;
static volatile sig_atomic_t asked_badly;

static void ask_in_handler(int number) {
    int kept = errno;
    (void)number;
    if (values(asked_file, 1) < 0)
        asked_badly = 1;
    errno = kept;
}

static int exit_well(int file) {
    (void)file;
    return 0;
}

/* Has a signal come in so many microseconds, once. */
static void signal_in(long microseconds) {
    const struct itimerval once = {{0, 0}, {0, microseconds}};
    setitimer(ITIMER_REAL, &once, NULL);
}

/* Forks often, and has a signal come at all moments of a fork, whose handler asks. */
static int fork_under_signals(int held) {
    struct sigaction action;
    bool good = true;
    memset(&action, 0, sizeof action);
    action.sa_handler = ask_in_handler;
    action.sa_flags = SA_RESTART;
    asked_file = held;
    sigaction(SIGALRM, &action, NULL);
    for (int turn = 0; turn < 600 && good; turn++) {
        int status = -1;
        signal_in(1 + turn % 300);
        pid_t child = fork();
        if (child == 0)
            _exit(0);
        good = child > 0 && waitpid(child, &status, 0) == child && status == 0;
    }
    return !good || asked_badly;
}

static void test_signals(void) {
    int held = request(1, GPIO_V2_LINE_FLAG_OUTPUT);
    test("a signal's handler asks in the midst of a fork");
    CHECK(end_within(run_child(fork_under_signals, held), MOST_SECONDS) == 0);
    close(held);
}

static void *ask_on(void *stop) {
    while (!__atomic_load_n((bool *)stop, __ATOMIC_ACQUIRE))
        if (values(asked_file, 1) < 0)
            return "wrong";
    return NULL;
}

/* Makes children by the system call alone, so that no handler of fork runs, while a thread asks. */
static int clone_beside_thread(int held) {
    pthread_t thread;
    bool stop = false, good = true;
    void *wrong;
    asked_file = held;
    if (pthread_create(&thread, NULL, ask_on, &stop))
        return 1;
    for (int turn = 0; turn < 200 && good; turn++) {
        pid_t child = (pid_t)syscall(SYS_clone, SIGCHLD, 0, 0, 0, 0);
        if (child == 0)
            _exit(values(held, 1) < 0);
        good = child > 0 && end_within(child, MOST_SECONDS) == 0;
    }
    __atomic_store_n(&stop, true, __ATOMIC_RELEASE);
    return pthread_join(thread, &wrong) || wrong || !good;
}

static void test_clone(void) {
    int held = request(1, GPIO_V2_LINE_FLAG_OUTPUT);
    test("a child that is made past the handlers of fork asks, while a thread of its parent does");
    CHECK(end_within(run_child(clone_beside_thread, held), MOST_SECONDS) == 0);
    close(held);
}

static int count_files(void) {
    int count = 0;
    DIR *folder = opendir("/proc/self/fd");
    while (folder && readdir(folder))
        count++;
    if (folder)
        closedir(folder);
    return count;
}

static __attribute__((noinline)) pid_t vfork_asking(int held) {
    pid_t child = vfork();
    if (child == 0)
        _exit(values(held, 1) < 0);
    return child;
}

/* Whether so many children of vfork get what they ask for. */
static bool vfork_often(int held, int children) {
    bool good = true;
    for (int turn = 0; turn < children && good; turn++)
        good = end_of(vfork_asking(held)) == 0;
    return good;
}

static int ask_for_value(int held) {
    return values(held, 1) < 0;
}

static void test_vfork(void) {
    int held = request(1, GPIO_V2_LINE_FLAG_OUTPUT), before = count_files();
    test("600 children of vfork ask, and leave nothing in their parent");
    CHECK(vfork_often(held, MANY_CHILDREN));
    CHECK(values(held, 1) == 0 && before > 0 && count_files() == before);
    CHECK(end_of(run_child(ask_for_value, held)) == 0);
    close(held);
}

/* The same in a child whose parent never asked. */
static int vfork_first(int held) {
    return !(vfork_often(held, 3) && values(held, 1) == 0 && vfork_often(held, 3));
}

static void test_vfork_first(void) {
    int held = request(1, GPIO_V2_LINE_FLAG_OUTPUT);
    test("a child of vfork asks before its parent does");
    CHECK(end_of(run_child(vfork_first, held)) == 0);
    close(held);
}

/* Writes over its environment, as daemons do that set their title. */
static int set_title(int line) {
    char *folder = getenv("GPIOSERVE");
    if (folder)
        memset(folder, 'x', strlen(folder));
    int held = request((uint32_t)line, GPIO_V2_LINE_FLAG_OUTPUT);
    int worker = held < 0 ? -1 : end_of(run_child(exit_well, 0));
    return !(worker == 0 && end_of(run_child(ask_for_value, held)) == 0);
}

static void test_title(void) {
    test("a program that writes over its environment goes on, and its children");
    CHECK(end_of(run_child(set_title, 1)) == 0);
}

/* Reads from a pipe of its own. */
static int read_own_pipe(int number) {
    int ends[2], before = count_files();
    char byte;
    return number || pipe(ends) || write(ends[1], "a", 1) != 1 || read(ends[0], &byte, 1) != 1 || before <= 0 ||
           count_files() != before + 2;
}

static void test_own_pipe(void) {
    test("a process that reads pipes of its own has no connection");
    CHECK(end_of(run_child(read_own_pipe, 0)) == 0);
}

void test_forks(void) {
    test_own_pipe();
    test_signals();
    test_clone();
    test_vfork();
    test_vfork_first();
    test_title();
}
