/* What the tests share: checks that are counted, lines that are requested, and statements that are said. */
#ifndef CHECK_H
#define CHECK_H

#include <linux/gpio.h>
#include <stdbool.h>
#include <stdint.h>
#include <sys/types.h>

/* Names the test that the checks from here on are of. */
void test(const char *name);

/* Counts a check, and prints what is wrong, with the line that says so. */
#define CHECK(good) check_one((good), __LINE__, #good)
void check_one(bool good, int line, const char *text);

/* Checks that a call failed with this error. */
#define CHECK_ERROR(call, number) check_error((call) < 0, (number), __LINE__, #call)
void check_error(bool failed, int number, int line, const char *text);

/* Prints `N passed, M failed` of the tests; whether none failed. */
bool test_end(void);

/* Says a statement: whether it was done. What it printed is valid up to the next one. */
bool say(const char *form, ...) __attribute__((format(printf, 1, 2)));
const char *said(void);
/* Whether what was said last is no statement. */
bool said_none(void);

/* Pulls a line of chip 0. */
bool pull(unsigned line, bool up);

/* Opens chip 0, or that of the number; it has to be there. */
int open_chip(unsigned number);

/* Requests lines of a chip, `lines` of `count`: the request's file or -1. */
int request_lines(int chip, const uint32_t *lines, uint32_t count, uint64_t flags, const char *consumer);
/* Requests one line of chip 0, by a chip file of its own. */
int request(uint32_t line, uint64_t flags);
/* Inputs with both edges, of one line of chip 0. */
int request_edges(uint32_t line);
/* The same with a debounce period in microseconds. */
int request_debounced(uint32_t line, uint32_t period);

/* The values of a request's first lines, `mask` of them; -1 where they can't be read. */
long values(int lines, uint64_t mask);
int set_values(int lines, uint64_t bits, uint64_t mask);

/* How many milliseconds a test waits at most for what has to come, on the busiest machine. */
#define WAIT_MOST 60000

/* What poll says of a file within so many milliseconds; 0 where nothing. */
short polled(int file, int timeout);

/* Whether the kernel notifies of this program's calls, so that there is no library in it. Its open files are pipes in
 * poll and in a read that waits: where a chip goes, these show an end and no error. */
extern bool is_notified;
/* Says what of the tests such a program can't pass, and why. */
void leave_out(const char *what);
/* What poll shows of a file whose chip is gone. */
short shown_gone(void);
/* Whether a read that waited ended with its chip, by what it returned. */
bool ended_with_chip(ssize_t got);

/* Sleeps so many milliseconds. */
void pause_for(unsigned milliseconds);

/* A child process that runs a function, whose result is its status. */
pid_t run_child(int (*work)(int), int argument);
/* Waits for a child: its status, or -1. */
int end_of(pid_t child);
/* The same within so many seconds, after which the child is killed. */
int end_within(pid_t child, unsigned seconds);

/* The groups of tests. */
void test_files(void);
void test_chip_names(void);
void test_memory(void);
void test_values(void);
void test_version1(void);
void test_events(void);
void test_processes(const char *own);
void test_threads(void);
void test_removal(void);
void test_hostile(void);
void test_saying(void);
void test_waits(void);
void test_waits_for_chips(void);
/* Of which no short transcript can be kept. */
void test_killed_midway(void);
void test_forks(void);
/* With the clock moved by statements. */
void test_manual(void);
/* Where a device of the machine is a GPIO chip. */
void test_hardware(void);
/* For which no transcript is short enough either. */
void test_churn(void);
/* With few numbers of files. */
void test_crowd(void);
/* Where gpio-sim's file system can be shown. */
void test_tree(void);
/* A program that waits for an event. */
int test_waiting(void);
/* And one that ends with it. */
int test_reading(void);
/* The other end of a test of exec. */
int test_inherited(const char *number);

#endif
