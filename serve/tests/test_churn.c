/* Many programs that are stopped, go on and are killed at any moment, all at once. */
#include <errno.h>
#include <fcntl.h>
#include <signal.h>
#include <stdlib.h>
#include <sys/ioctl.h>
#include <sys/prctl.h>
#include <sys/wait.h>
#include <time.h>
#include <unistd.h>

#include "check.h"
#include "raw.h"

/* Programs at a time, how many are killed in all, and after how many seconds fewer are enough: more than CLIENTS. */
#define CLIENTS 200
#define KILLED 3000
#define SECONDS 20

#define LINES 8

static unsigned random_below(unsigned bound) {
    return (unsigned)random() % bound;
}

/* Requests a line, works with it, and closes it. */
static void use_line(uint32_t line) {
    struct gpio_v2_line_event events[4];
    int held = random_below(2) ? request_edges(line) : request(line, GPIO_V2_LINE_FLAG_OUTPUT);
    if (held < 0)
        return;
    for (unsigned i = random_below(5); i > 0; i--) {
        values(held, 1);
        set_values(held, i & 1, 1);
        pull(line, i & 1);
    }
    if (fcntl(held, F_SETFL, O_NONBLOCK) == 0 && read(held, events, sizeof events) < 0 && errno == ENODEV)
        _exit(1);
    close(held);
}

static void watch_line(uint32_t line) {
    struct gpio_v2_line_info info = {.offset = line};
    struct gpio_v2_line_info_changed changes[2];
    int chip = open_chip(0);
    if (chip >= 0 && ioctl(chip, GPIO_V2_GET_LINEINFO_WATCH_IOCTL, &info) == 0 &&
        fcntl(chip, F_SETFL, O_NONBLOCK) == 0 && read(chip, changes, sizeof changes) < 0 && errno == ENODEV)
        _exit(1);
    close(chip);
}

/* Ends with its parent, which may have ended already. */
static void live(pid_t parent, unsigned seed) {
    if (prctl(PR_SET_PDEATHSIG, SIGKILL) || getppid() != parent)
        _exit(1);
    srandom(seed);
    for (;;) {
        uint32_t line = random_below(LINES);
        if (random_below(3))
            use_line(line);
        else
            watch_line(line);
    }
}

static pid_t start_one(unsigned seed) {
    pid_t own = getpid(), child = fork();
    if (child == 0)
        live(own, seed);
    return child;
}

/* Kills a program, and waits for its end. */
static void kill_one(pid_t child) {
    if (child <= 0)
        return;
    kill(child, SIGKILL);
    while (waitpid(child, NULL, 0) < 0 && errno == EINTR)
        continue;
}

/* Stops programs, lets them go on, and kills them, each at random, and starts others in their place. How many were
 * killed. */
static unsigned churn(pid_t *clients) {
    const struct timespec pause = {0, 1000 * 1000};
    time_t end = time(NULL) + SECONDS;
    unsigned killed = 0;
    while (killed < KILLED && (killed <= CLIENTS || time(NULL) < end)) {
        unsigned which = random_below(CLIENTS);
        unsigned deed = random_below(4);
        if (deed < 2 && clients[which] > 0) {
            kill(clients[which], deed == 0 ? SIGSTOP : SIGCONT);
        } else {
            kill_one(clients[which]);
            clients[which] = start_one(++killed);
        }
        if (random_below(4) == 0)
            nanosleep(&pause, NULL);
    }
    return killed;
}

void test_churn(void) {
    pid_t clients[CLIENTS] = {0};
    test("200 programs that are stopped and killed at random leave all lines free");
    close(request(0, GPIO_V2_LINE_FLAG_INPUT)); /* (so that this program has its own connection already) */
    int before = raw_count_of_broker(), after = -1;
    CHECK(churn(clients) > CLIENTS);
    for (int i = 0; i < CLIENTS; i++)
        kill_one(clients[i]);
    for (uint32_t line = 0; line < LINES; line++) {
        int held = request(line, GPIO_V2_LINE_FLAG_INPUT);
        CHECK(held >= 0 && values(held, 1) >= 0);
        close(held);
    }
    test("and nothing of theirs in the broker");
    for (int look = 0; look < WAIT_MOST / 20 && (after = raw_count_of_broker()) != before; look++)
        pause_for(20);
    CHECK(before > 0 && after == before);
}
