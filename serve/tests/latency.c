/* Prints how long calls take, each beside an empty chain in the same run: latency [CALLS].
 *
 * The chain is what no call can do without: this process sends 40 bytes over a socket, a second one hands them on by a
 * pipe to a third one, and the answer comes back the same way. The board has to have 256 lines in its first chip. */
#include <linux/gpio.h>
#include <sched.h>
#include <signal.h>
#include <stdatomic.h>
#include <stdint.h>
#include <stdio.h>
#include <stdlib.h>
#include <string.h>
#include <sys/ioctl.h>
#include <sys/mman.h>
#include <sys/prctl.h>
#include <sys/socket.h>
#include <sys/syscall.h>
#include <time.h>
#include <unistd.h>

#include "check.h"

#define PACKET 40
/* Requests with edges that there are at most. */
#define MANY 240

static double now(void) {
    struct timespec time;
    clock_gettime(CLOCK_MONOTONIC, &time);
    return (double)time.tv_sec * 1e6 + (double)time.tv_nsec / 1e3;
}

static int compare(const void *first, const void *second) {
    double a = *(const double *)first, b = *(const double *)second;
    return (a > b) - (a < b);
}

/* Calls the system directly: the library stands in front of read. */
static bool pass_on(int from, int to) {
    char bytes[PACKET];
    long got = syscall(SYS_read, from, bytes, sizeof bytes);
    return got > 0 && syscall(SYS_write, to, bytes, (size_t)got) == got;
}

/* Ends with this program, whose process number is handed in: it may have ended already. */
static void end_with(pid_t parent) {
    if (prctl(PR_SET_PDEATHSIG, SIGKILL) || getppid() != parent)
        _exit(1);
}

/* Hands on what comes from one file to another one, and in `back` from a third one to a fourth, until this program
 * ends.
 */
static void hand_on(int from, int to, int back_from, int back_to) {
    while (pass_on(from, to) && (back_from < 0 || pass_on(back_from, back_to)))
        continue;
    _exit(0);
}

/* The end of a chain of two other processes; -1 where there can be none. */
static int make_chain(void) {
    int ends[2], there[2], back[2];
    if (socketpair(AF_UNIX, SOCK_SEQPACKET, 0, ends) || pipe(there) || pipe(back))
        return -1;
    pid_t own = getpid(), far = fork();
    if (far == 0) {
        end_with(own);
        hand_on(there[0], back[1], -1, -1);
    }
    pid_t middle = far < 0 ? -1 : fork();
    if (middle == 0) {
        end_with(own);
        hand_on(ends[1], there[1], back[0], ends[1]);
    }
    return middle < 0 ? -1 : ends[0];
}

/* What is measured: each call, and the state that it needs. */
struct state {
    int chain, chip, held, output;
    _Atomic double *read_at; /* when the reader had its event */
    unsigned turn;
    double begin; /* of a call that measures from another moment, or 0 */
};

static bool call_chain(struct state *state) {
    char bytes[PACKET] = {0};
    return syscall(SYS_write, state->chain, bytes, sizeof bytes) == PACKET &&
           syscall(SYS_read, state->chain, bytes, sizeof bytes) == PACKET;
}

static bool call_get(struct state *state) {
    struct gpio_v2_line_values values = {.mask = 1};
    return ioctl(state->held, GPIO_V2_LINE_GET_VALUES_IOCTL, &values) == 0;
}

static bool call_set(struct state *state) {
    struct gpio_v2_line_values values = {.mask = 1, .bits = ++state->turn & 1};
    return ioctl(state->output, GPIO_V2_LINE_SET_VALUES_IOCTL, &values) == 0;
}

/* Requests a line. The closing isn't measured: another call sees to it that it is done. */
static bool call_request(struct state *state) {
    struct gpio_v2_line_request asked = {.offsets = {252}, .num_lines = 1, .config.flags = GPIO_V2_LINE_FLAG_INPUT};
    state->begin = now();
    bool good = ioctl(state->chip, GPIO_V2_GET_LINE_IOCTL, &asked) == 0;
    double end = now();
    good = good && close(asked.fd) == 0 && call_get(state);
    state->begin += now() - end;
    return good;
}

static bool call_pull(struct state *state) {
    return pull(0, ++state->turn & 1);
}

/* From a pull to the moment in which another process has read its event. */
static bool call_pull_read(struct state *state) {
    atomic_store(state->read_at, 0);
    double begin = now(), end = begin;
    bool good = pull(253, ++state->turn & 1);
    while (good && (end = atomic_load(state->read_at)) <= 0)
        sched_yield();
    state->begin = begin + now() - end;
    return good;
}

/* A process that reads the events of a line. */
static bool start_reader(struct state *state) {
    struct gpio_v2_line_event event;
    int held = request_edges(253);
    state->read_at = mmap(NULL, sizeof *state->read_at, PROT_READ | PROT_WRITE, MAP_SHARED | MAP_ANONYMOUS, -1, 0);
    if (held < 0 || state->read_at == MAP_FAILED)
        return false;
    pid_t own = getpid(), reader = fork();
    if (reader == 0) {
        end_with(own);
        while (read(held, &event, sizeof event) == sizeof event)
            atomic_store(state->read_at, now());
        _exit(0);
    }
    return reader > 0;
}

static bool time_one(bool (*call)(struct state *), struct state *state, double *took) {
    double begin = now();
    state->begin = 0;
    bool good = call(state);
    *took = now() - (state->begin > 0 ? state->begin : begin);
    return good;
}

/* Times a call and the chain in turn, and prints the medians and their ratio. The median, or -1. */
static double measure(const char *name, bool (*call)(struct state *), struct state *state, size_t calls) {
    double *times = calloc(2 * calls, sizeof *times), median = -1;
    bool good = times != NULL;
    for (size_t i = 0; good && i < calls; i++)
        good = time_one(call, state, &times[i]) && time_one(call_chain, state, &times[calls + i]);
    if (good) {
        qsort(times, calls, sizeof *times, compare);
        qsort(times + calls, calls, sizeof *times, compare);
        median = times[calls / 2];
        double chain = times[calls + calls / 2];
        printf("%-34s %6.1f us  chain %6.1f us  ratio %.2f  99 of 100 below %.1f us\n", name, median, chain,
            median / chain, times[calls / 100 * 99]);
    } else {
        printf("%s: can't be measured here\n", name);
    }
    fflush(stdout);
    free(times);
    return median;
}

/* Requests lines with edges, from `first` up to `end`. */
static bool request_many(uint32_t first, uint32_t end) {
    for (uint32_t line = first; line < end; line++)
        if (request_edges(line) < 0)
            return false;
    return true;
}

int main(int count, char **arguments) {
    size_t calls = count > 1 ? (size_t)atol(arguments[1]) : 5000;
    struct state state = {.chain = make_chain(), .chip = open_chip(0)};
    state.held = request(250, GPIO_V2_LINE_FLAG_INPUT);
    state.output = request(251, GPIO_V2_LINE_FLAG_OUTPUT);
    if (state.chain < 0 || state.chip < 0 || state.held < 0 || state.output < 0 || calls < 100) {
        fputs("latency: run it as gpioserve -b tests/board256 -- out/latency\n", stderr);
        return 1;
    }
    double get = measure("GET_VALUES", call_get, &state, calls);
    bool good = get > 0 && measure("SET_VALUES", call_set, &state, calls) > 0 &&
                measure("GET_LINE", call_request, &state, calls) > 0;
    good = good && start_reader(&state);
    double reads = good ? measure("a pull up to a reader's read", call_pull_read, &state, calls) : -1;
    good = reads > 0 && request_many(0, 1);
    double one = good ? measure("a pull, 1 file with edges", call_pull, &state, calls) : -1;
    good = one > 0 && request_many(1, MANY);
    double many = good ? measure("a pull, 240 files with edges", call_pull, &state, calls) : -1;
    if (many > 0)
        printf("a pull up to a reader's read takes %.2f GET_VALUES; with 240 files a pull takes %.2f of that with 1\n",
            reads / get, many / one);
    return many <= 0;
}
