/* What programs do that a library in between doesn't have to get right: notified [--exact | --outlives], run by
 * gpioserve --way notify on tests/board. What the machine at hand doesn't have is named as left out. */
#include <dirent.h>
#include <errno.h>
#include <fcntl.h>
#include <linux/filter.h>
#include <linux/openat2.h>
#include <linux/seccomp.h>
#include <linux/userfaultfd.h>
#include <pthread.h>
#include <sched.h>
#include <signal.h>
#include <stdatomic.h>
#include <stddef.h>
#include <stdio.h>
#include <stdlib.h>
#include <string.h>
#include <sys/ioctl.h>
#include <sys/mman.h>
#include <sys/prctl.h>
#include <sys/resource.h>
#include <sys/stat.h>
#include <sys/syscall.h>
#include <sys/sysmacros.h>
#include <sys/time.h>
#include <unistd.h>

#include "check.h"

#define PAGE 4096
/* A user who has no rights, and a folder for chroot. */
#define NOBODY 65534
#define EMPTY_FOLDER "/proc"
/* Signals come so often, in microseconds. */
#define SIGNAL_PERIOD 200
/* (a session has at most 1,048,576 bytes, and what this asks is run again as one) */
#define MANY_REQUESTS 500

static bool is_exact;

/* Whether a file is a chip's. */
static bool is_chip(int file) {
    struct gpiochip_info info;
    return file >= 0 && ioctl(file, GPIO_GET_CHIPINFO_IOCTL, &info) == 0 && info.lines == 8;
}

static bool opens(int file) {
    bool good = is_chip(file);
    close(file);
    return good;
}

static bool is_free(uint32_t line) {
    int held = request(line, GPIO_V2_LINE_FLAG_INPUT);
    close(held);
    return held >= 0;
}

static void fill_request(struct gpio_v2_line_request *asked, uint32_t line) {
    memset(asked, 0, sizeof *asked);
    asked->offsets[0] = line;
    asked->num_lines = 1;
    asked->config.flags = GPIO_V2_LINE_FLAG_OUTPUT;
}

static void test_openings(void) {
    struct open_how how = {.flags = O_RDWR | O_CLOEXEC};
    test("a chip is opened by each call that opens, by names of all forms");
    CHECK(opens((int)syscall(SYS_openat, AT_FDCWD, "/dev/gpiochip0", O_RDONLY)));
    CHECK(opens((int)syscall(SYS_openat2, AT_FDCWD, "/dev/gpiochip0", &how, sizeof how)));
#ifdef SYS_open
    CHECK(opens((int)syscall(SYS_open, "/dev/gpiochip0", O_RDWR)));
#endif
    int folder = open("/dev", O_RDONLY | O_DIRECTORY);
    CHECK(folder >= 0 && opens(openat(folder, "gpiochip0", O_RDWR)) && opens(openat(folder, "./gpiochip1", O_RDWR)));
    CHECK(chdir("/dev") == 0 && opens(open("gpiochip0", O_RDWR)) && opens(open("../dev/gpiochip1", O_RDWR)));
    CHECK(chdir("/") == 0 && opens(open("dev/gpiochip0", O_RDWR)) && opens(open("//dev/./gpiochip0", O_RDWR)));
    CHECK_ERROR(open("/dev/gpiochip0/", O_RDWR), ENOTDIR);
    CHECK_ERROR(open("/dev/gpiochip0", O_RDWR | O_DIRECTORY), ENOTDIR);
    CHECK_ERROR(open("/dev/gpiochip77", O_RDWR), ENOENT);
    CHECK_ERROR((int)syscall(SYS_openat2, AT_FDCWD, "/dev/gpiochip0", &how, 1), EINVAL);
    how.resolve = RESOLVE_BENEATH;
    CHECK(opens((int)syscall(SYS_openat2, folder, "gpiochip0", &how, sizeof how)));
    CHECK_ERROR((int)syscall(SYS_openat2, folder, "../dev/gpiochip0", &how, sizeof how), EXDEV);
    CHECK_ERROR((int)syscall(SYS_openat2, folder, "/dev/gpiochip0", &how, sizeof how), EXDEV);
    how.resolve = RESOLVE_IN_ROOT;
    CHECK_ERROR((int)syscall(SYS_openat2, folder, "/dev/gpiochip0", &how, sizeof how), ENOENT);
    how = (struct open_how){.flags = UINT64_C(1) << 40};
    CHECK_ERROR((int)syscall(SYS_openat2, AT_FDCWD, "/dev/gpiochip0", &how, sizeof how), EINVAL);
    close(folder);
}

static void test_own_folder(void) {
    static const char *const names[] = {"/proc/self/fd/%d", "/proc//self/fd/%d", "/proc/./self//fd/%d",
        "/proc/thread-self/fd/%d", "/proc/self/task/../fd/%d"};
    char name[64];
    int folder = open("/dev", O_RDONLY | O_DIRECTORY);
    test("names in /proc/self are those of the program, however they are written");
    for (size_t i = 0; i < sizeof names / sizeof *names; i++) {
        struct stat dev, status;
        snprintf(name, sizeof name, names[i], folder);
        CHECK(stat(name, &status) == 0 && fstat(folder, &dev) == 0 && status.st_ino == dev.st_ino);
    }
    CHECK(chdir("/dev") == 0 && opens(open("/proc//self/cwd/gpiochip0", O_RDWR)));
    CHECK(chdir("/") == 0);
    CHECK_ERROR(open("/proc//self/cwd/gpiochip0", O_RDWR), ENOENT);
    close(folder);
}

static void test_numbers(void) {
    int first = open("/etc/passwd", O_RDONLY), second = open_chip(0), held;
    test("a file has the lowest number that is free");
    CHECK(second == first + 1 && close(first) == 0);
    first = open_chip(0);
    held = request(5, GPIO_V2_LINE_FLAG_INPUT);
    CHECK(first == second - 1 && held == second + 2);
    CHECK(dup2(held, 500) == 500 && close(held) == 0 && values(500, 1) == 0 && close(500) == 0 && is_free(5));
    close(first);
    close(second);
}

static void test_statuses(void) {
    struct stat status;
    struct statx extended;
    char text[64] = "";
    test("what is asked of names is answered for chips");
    CHECK(syscall(SYS_newfstatat, AT_FDCWD, "/dev/gpiochip1", &status, 0) == 0 && S_ISCHR(status.st_mode));
    CHECK(status.st_rdev == makedev(254, 1));
    CHECK(syscall(SYS_statx, AT_FDCWD, "/dev/gpiochip1", 0, STATX_BASIC_STATS, &extended) == 0);
    CHECK(S_ISCHR(extended.stx_mode) && extended.stx_rdev_major == 254 && extended.stx_rdev_minor == 1);
    CHECK(syscall(SYS_faccessat, AT_FDCWD, "/dev/gpiochip0", R_OK | W_OK) == 0);
    CHECK_ERROR((int)syscall(SYS_faccessat, AT_FDCWD, "/dev/gpiochip0", X_OK), EACCES);
    CHECK_ERROR((int)syscall(SYS_faccessat, AT_FDCWD, "/dev/gpiochip70", F_OK), ENOENT);
    long length = syscall(SYS_readlinkat, AT_FDCWD, "/sys/bus/gpio/devices/gpiochip0/subsystem", text, sizeof text);
    CHECK(length == strlen("/sys/bus/gpio") && memcmp(text, "/sys/bus/gpio", (size_t)length) == 0);
    CHECK(syscall(SYS_readlinkat, AT_FDCWD, "/sys/bus/gpio/devices/gpiochip0/subsystem", text, 4) == 4);
    CHECK_ERROR((int)syscall(SYS_readlinkat, AT_FDCWD, "/sys/bus/gpio/devices/gpiochip0/subsystem", text, 0), EINVAL);
    CHECK_ERROR((int)syscall(SYS_readlinkat, AT_FDCWD, "/dev/gpiochip0", text, sizeof text), EINVAL);
    CHECK_ERROR((int)syscall(SYS_getxattr, "/dev/gpiochip0", "user.a", text, sizeof text), ENODATA);
    CHECK(syscall(SYS_listxattr, "/dev/gpiochip0", text, sizeof text) == 0);
    CHECK_ERROR((int)syscall(SYS_newfstatat, AT_FDCWD, "/dev/gpiochip0", &status, 0x40000000), EINVAL);
}

static void test_listing(void) {
    struct dirent *entry;
    DIR *folder = opendir("/dev");
    int chips = 0, others = 0;
    test("chips are listed in /dev as devices, beside what else is there");
    while (folder && (entry = readdir(folder))) {
        chips += strncmp(entry->d_name, "gpiochip", strlen("gpiochip")) == 0 &&
                 (entry->d_type == DT_CHR || entry->d_type == DT_REG);
        others += strcmp(entry->d_name, "null") == 0;
    }
    CHECK(chips == 2 && others == 1);
    if (folder)
        closedir(folder);
}

/* Two pages, of which the second isn't there. */
static char *edge_of_memory(void) {
    char *pages = mmap(NULL, 2 * PAGE, PROT_READ | PROT_WRITE, MAP_PRIVATE | MAP_ANONYMOUS, -1, 0);
    if (pages == MAP_FAILED || munmap(pages + PAGE, PAGE))
        abort();
    return pages;
}

static void test_bad_memory(void) {
    static const char name[] = "/dev/gpiochip0";
    char *pages = edge_of_memory(), *nowhere = pages + PAGE, long_name[PAGE + 10];
    struct gpio_v2_line_request *asked = (struct gpio_v2_line_request *)pages;
    int chip = open_chip(0);
    test("memory that isn't there is EFAULT, and leaves nothing behind");
    CHECK_ERROR((int)syscall(SYS_openat, AT_FDCWD, nowhere, O_RDWR), EFAULT);
    memcpy(nowhere - 3, "/de", 3);
    CHECK_ERROR((int)syscall(SYS_openat, AT_FDCWD, nowhere - 3, O_RDWR), EFAULT);
    memcpy(nowhere - sizeof name, name, sizeof name);
    CHECK(opens((int)syscall(SYS_openat, AT_FDCWD, nowhere - sizeof name, O_RDWR)));
    CHECK_ERROR((int)syscall(SYS_newfstatat, AT_FDCWD, name, nowhere, 0), EFAULT);
    CHECK_ERROR(ioctl(chip, GPIO_V2_GET_LINE_IOCTL, nowhere), EFAULT);
    CHECK_ERROR(ioctl(chip, GPIO_V2_GET_LINE_IOCTL, nowhere - sizeof *asked + 4), EFAULT);
    CHECK_ERROR(ioctl(chip, GPIO_GET_CHIPINFO_IOCTL, NULL), EFAULT);
    fill_request(asked, 6);
    CHECK(mprotect(pages, PAGE, PROT_READ) == 0);
    CHECK_ERROR(ioctl(chip, GPIO_V2_GET_LINE_IOCTL, asked), EFAULT);
    CHECK(is_free(6));
    memset(long_name, 'a', sizeof long_name);
    memcpy(long_name, "/dev/", strlen("/dev/"));
    long_name[sizeof long_name - 1] = 0;
    CHECK_ERROR(open(long_name, O_RDWR), ENAMETOOLONG);
    munmap(pages, PAGE);
    close(chip);
}

static void test_no_number(void) {
    struct gpio_v2_line_request asked, before;
    struct rlimit limit, few;
    int chip = open_chip(0);
    test("where the program has no number left, an opening and a request are EMFILE");
    CHECK(getrlimit(RLIMIT_NOFILE, &limit) == 0);
    few = limit;
    few.rlim_cur = (rlim_t)chip + 1;
    fill_request(&asked, 6);
    asked.fd = 1234;
    before = asked;
    CHECK(setrlimit(RLIMIT_NOFILE, &few) == 0);
    CHECK_ERROR(open_chip(0), EMFILE);
    CHECK_ERROR(ioctl(chip, GPIO_V2_GET_LINE_IOCTL, &asked), EMFILE);
    CHECK(setrlimit(RLIMIT_NOFILE, &limit) == 0 && memcmp(&asked, &before, sizeof asked) == 0 && is_free(6));
    close(chip);
}

static int splice_out(int held) {
    struct gpio_v2_line_event event;
    int ends[2];
    if (pipe(ends) || !pull(1, true) || splice(held, NULL, ends[1], NULL, sizeof event, 0) != sizeof event)
        return 1;
    return read(ends[0], &event, sizeof event) != sizeof event || event.id != GPIO_V2_LINE_EVENT_RISING_EDGE;
}

static void test_splice(void) {
    int held = request_edges(1);
    test("an event is moved from file to file by the kernel");
    CHECK(splice_out(held) == 0 && pull(1, false));
    close(held);
}

static volatile sig_atomic_t signalled;

static void on_signal(int number) {
    (void)number;
    signalled++;
}

static void signal_often(int flags, unsigned period) {
    struct itimerval often = {{0, period}, {0, period}};
    struct sigaction action = {.sa_handler = on_signal, .sa_flags = flags};
    sigaction(SIGALRM, &action, NULL);
    setitimer(ITIMER_REAL, &often, NULL);
}

/* Requests a line many times under signals. How many were done, of which each is released again; `*interrupted` counts
 * those that failed with EINTR. -1 where one failed otherwise. */
static int request_under_signals(int flags, int *interrupted) {
    int chip = open_chip(0), done = 0;
    *interrupted = 0;
    signal_often(flags, SIGNAL_PERIOD);
    for (int turn = 0; turn < MANY_REQUESTS; turn++) {
        struct gpio_v2_line_request asked;
        fill_request(&asked, 1);
        int failed = ioctl(chip, GPIO_V2_GET_LINE_IOCTL, &asked);
        if (failed && errno != EINTR) {
            done = -1;
            break;
        }
        *interrupted += failed != 0;
        done += !failed;
        if (!failed)
            close(asked.fd);
    }
    signal_often(SA_RESTART, 0);
    while (close(chip) < 0 && errno == EINTR)
        continue;
    return done;
}

static void test_signals(void) {
    int interrupted;
    test("under signals each call is done once: with SA_RESTART all are, without it some are EINTR");
    CHECK(request_under_signals(SA_RESTART, &interrupted) == MANY_REQUESTS && interrupted == 0 && signalled > 0);
    CHECK(request_under_signals(0, &interrupted) == MANY_REQUESTS - interrupted && is_free(1));
}

static int pull_later(int line) {
    pause_for(100);
    return !pull((unsigned)line, true);
}

static void test_interrupted_read(void) {
    struct gpio_v2_line_event event;
    int held = request_edges(1);
    test("a read that waits is interrupted, and with SA_RESTART goes on");
    signal_often(0, 20000);
    CHECK_ERROR(read(held, &event, sizeof event), EINTR);
    signalled = 0;
    signal_often(SA_RESTART, 5000);
    pid_t child = run_child(pull_later, 1);
    CHECK(read(held, &event, sizeof event) == sizeof event && event.id == GPIO_V2_LINE_EVENT_RISING_EDGE);
    signal_often(SA_RESTART, 0);
    CHECK(end_of(child) == 0 && signalled > 0 && pull(1, false));
    close(held);
}

static void *set_and_open(void *argument) {
    uint32_t line = *(uint32_t *)argument;
    for (unsigned turn = 0; turn < 40; turn++) {
        int held = request(line, GPIO_V2_LINE_FLAG_OUTPUT), other = open("/etc/passwd", O_RDONLY);
        bool good =
            held >= 0 && other >= 0 && set_values(held, turn & 1, 1) == 0 && values(held, 1) == (long)(turn & 1);
        close(held);
        close(other);
        if (!good)
            return "wrong";
    }
    return NULL;
}

static void test_threads_with_files(void) {
    pthread_t threads[8];
    uint32_t lines[8];
    bool good = true;
    test("eight threads, each with a line and a file of its own");
    for (uint32_t i = 0; i < 8; i++) {
        lines[i] = i;
        good = pthread_create(&threads[i], NULL, set_and_open, &lines[i]) == 0 && good;
    }
    for (uint32_t i = 0; i < 8; i++) {
        void *wrong;
        good = pthread_join(threads[i], &wrong) == 0 && !wrong && good;
    }
    CHECK(good);
}

static char changing_name[] = "/dev/gpiochip0";
static atomic_bool name_is_done;

static void *change_name(void *unused) {
    (void)unused;
    while (!atomic_load(&name_is_done)) {
        memcpy(changing_name, "/dev/null\0ip0", 14);
        sched_yield();
        memcpy(changing_name, "/dev/gpiochip0", 14);
        sched_yield();
    }
    return NULL;
}

static void test_changing_name(void) {
    pthread_t other;
    int wrong = 0;
    test("a name that another thread changes opens one of both, or nothing");
    CHECK(pthread_create(&other, NULL, change_name, NULL) == 0);
    for (int turn = 0; turn < 1000; turn++) {
        struct stat status;
        int file = open(changing_name, O_RDWR);
        wrong +=
            file < 0 ? errno != ENOENT : !is_chip(file) && (fstat(file, &status) || status.st_rdev != makedev(1, 3));
        if (file >= 0)
            close(file);
    }
    atomic_store(&name_is_done, true);
    CHECK(pthread_join(other, NULL) == 0 && wrong == 0);
}

static int filter_oneself(int unused) {
    struct sock_filter steps[] = {BPF_STMT(BPF_LD | BPF_W | BPF_ABS, offsetof(struct seccomp_data, nr)),
        BPF_JUMP(BPF_JMP | BPF_JEQ | BPF_K, SYS_mkdirat, 0, 1), BPF_STMT(BPF_RET | BPF_K, SECCOMP_RET_ERRNO | EPERM),
        BPF_STMT(BPF_RET | BPF_K, SECCOMP_RET_ALLOW)};
    struct sock_fprog program = {sizeof steps / sizeof *steps, steps};
    (void)unused;
    prctl(PR_SET_NO_NEW_PRIVS, 1, 0, 0, 0);
    if (syscall(SYS_seccomp, SECCOMP_SET_MODE_FILTER, 0, &program) || !opens(open_chip(0)))
        return 1;
    long listener = syscall(SYS_seccomp, SECCOMP_SET_MODE_FILTER, SECCOMP_FILTER_FLAG_NEW_LISTENER, &program);
    return listener >= 0 || errno != EBUSY;
}

static int become_undumpable(int unused) {
    (void)unused;
    int chip = open_chip(0);
    if (chip < 0 || prctl(PR_SET_DUMPABLE, 0, 0, 0, 0))
        return 1;
    bool hidden = geteuid() == 0 || (open_chip(0) < 0 && errno == ENOENT);
    int other = open("/etc/passwd", O_RDONLY);
    return !hidden || other < 0 || prctl(PR_SET_DUMPABLE, 1, 0, 0, 0) || !is_chip(chip) || !opens(open_chip(0));
}

static void test_guarded(void) {
    test("a program with a filter of its own finds the chips, and may have no listener");
    CHECK(end_of(run_child(filter_oneself, 0)) == 0);
    test("a program that lets nobody read its memory goes on, and finds chips again once it does");
    CHECK(end_of(run_child(become_undumpable, 0)) == 0);
}

static int open_in_namespaces(int unused) {
    (void)unused;
    if (unshare(CLONE_NEWUSER | CLONE_NEWNS | CLONE_NEWPID))
        return 2;
    pid_t child = fork();
    if (child == 0)
        _exit(!opens(open_chip(0)) || !is_free(6));
    return end_of(child) != 0 || !opens(open_chip(0));
}

static int open_as_nobody(int unused) {
    (void)unused;
    if (setgid(NOBODY) || setuid(NOBODY))
        return 2;
    return !opens(open_chip(0)) || !is_free(6);
}

static int open_in_chroot(int unused) {
    (void)unused;
    if (chroot(EMPTY_FOLDER) || chdir("/"))
        return 2;
    return !opens(open_chip(0)) || access("/dev/gpiochip1", R_OK) != 0 || open("/etc/passwd", O_RDONLY) >= 0;
}

static void test_places(void) {
    static const struct {
        int (*run)(int);
        const char *name, *left_out;
    } places[] = {{open_in_namespaces, "a program in namespaces of its own finds the chips", "namespaces of users"},
        {open_as_nobody, "so does one that becomes another user", "becoming another user, which only root may"},
        {open_in_chroot, "and one in a folder that is its root", "chroot, which only root may"}};
    for (size_t i = 0; i < sizeof places / sizeof *places; i++) {
        int ended = end_of(run_child(places[i].run, 0));
        if (ended == 2) {
            leave_out(places[i].left_out);
            continue;
        }
        test(places[i].name);
        CHECK(ended == 0);
    }
}

static void test_other_calls(void) {
    char parameters[256] = {0};
    test("there is no io_uring, whose openings nobody would see");
    CHECK_ERROR((int)syscall(SYS_io_uring_setup, 4, parameters), ENOSYS);
#ifdef __x86_64__
    char *low = mmap(NULL, PAGE, PROT_READ | PROT_WRITE, MAP_PRIVATE | MAP_ANONYMOUS | MAP_32BIT, -1, 0);
    long result = 0;
    test("a call of 32 bits finds what the system has");
    CHECK(low != MAP_FAILED);
    strcpy(low, "/dev/gpiochip1");
    __asm__ volatile("int $0x80" : "=a"(result) : "a"(5L), "b"((long)low), "c"(2L), "d"(0L) : "memory");
    CHECK(result < 0);
    munmap(low, PAGE);
#endif
}

/* A queue of few events that overflows while another thread reads it. */
static atomic_uint pulls;
static atomic_bool pulls_are_done;
#define FEW_EVENTS 4
#define MANY_PULLS 2000

static void *pull_often(void *unused) {
    (void)unused;
    for (unsigned i = 0; i < MANY_PULLS; i++) {
        atomic_fetch_add(&pulls, 1);
        if (!pull(1, i % 2 == 0))
            break;
    }
    atomic_store(&pulls_are_done, true);
    return NULL;
}

/* Whether the event that was read is one that a queue of FEW_EVENTS gives behind the last one: those in between were
 * the oldest when others came. */
static bool may_follow(uint32_t last, uint32_t number) {
    return number == last + 1 || (number > last + 1 && number - 1 + FEW_EVENTS <= atomic_load(&pulls));
}

static void test_overflow_beside(void) {
    struct gpio_v2_line_request asked;
    struct gpio_v2_line_event events[2 * FEW_EVENTS];
    pthread_t other;
    uint32_t last = 0;
    bool good = true;
    int chip = open_chip(0);
    test("what is lost while a thread reads is what a queue loses, and all else comes in order");
    fill_request(&asked, 1);
    asked.event_buffer_size = FEW_EVENTS;
    asked.config.flags = GPIO_V2_LINE_FLAG_INPUT | GPIO_V2_LINE_FLAG_EDGE_RISING | GPIO_V2_LINE_FLAG_EDGE_FALLING;
    CHECK(ioctl(chip, GPIO_V2_GET_LINE_IOCTL, &asked) == 0 && fcntl(asked.fd, F_SETFL, O_NONBLOCK) == 0);
    CHECK(pthread_create(&other, NULL, pull_often, NULL) == 0);
    for (bool done = false; !done;) {
        done = atomic_load(&pulls_are_done);
        ssize_t got = read(asked.fd, events, (1 + last % FEW_EVENTS) * sizeof *events);
        for (ssize_t i = 0; i < got / (ssize_t)sizeof *events; i++) {
            good = good && may_follow(last, events[i].seqno);
            last = events[i].seqno;
        }
        done = done && got < 0;
    }
    CHECK(pthread_join(other, NULL) == 0 && good && last == MANY_PULLS);
    close(asked.fd);
    close(chip);
}

static void test_reads(void) {
    struct gpio_v2_line_event event, three[3];
    struct stat status;
    int held = request_edges(1), chip = open_chip(1);
    CHECK(fcntl(held, F_SETFL, O_NONBLOCK) == 0 && pull(1, true) && pull(1, false) && pull(1, true));
    if (is_exact) {
        test("with --exact reads and the status of open files are the chips'");
        CHECK_ERROR(read(held, &event, sizeof event - 1), EINVAL);
        CHECK(read(held, three, 2 * sizeof event + 47) == 2 * sizeof event && three[1].seqno == 2);
        CHECK(read(held, three, sizeof event + 1) == sizeof event && three[0].seqno == 3);
        CHECK_ERROR(read(held, three, sizeof event + 1), EAGAIN);
        CHECK(fstat(chip, &status) == 0 && S_ISCHR(status.st_mode) && status.st_rdev == makedev(254, 1));
    } else {
        test("without --exact a short read takes a part of an event, and an open chip is a pipe");
        CHECK(read(held, &event, sizeof event - 1) == sizeof event - 1 && read(held, three, 1) == 1);
        CHECK(read(held, three, sizeof three) == 2 * sizeof event && three[0].seqno == 2 && three[1].seqno == 3);
        CHECK(fstat(chip, &status) == 0 && S_ISFIFO(status.st_mode));
    }
    CHECK(pull(1, false));
    close(held);
    close(chip);
}

/* Names in memory that another thread provides, once all of them are awaited and it has opened a file itself. */
#define SLOW_NAMES 4
static int fault_file;
static char *fault_pages;

static void *provide_names(void *unused) {
    static char page[PAGE] = "/dev/gpiochip0";
    struct uffd_msg message;
    bool good = true;
    (void)unused;
    for (int i = 0; i < SLOW_NAMES; i++)
        good = read(fault_file, &message, sizeof message) == sizeof message && good;
    int other = open("/etc/passwd", O_RDONLY);
    close(other);
    for (int i = 0; i < SLOW_NAMES; i++) {
        struct uffdio_copy copy = {
            .dst = (uintptr_t)fault_pages + (uintptr_t)i * PAGE, .src = (uintptr_t)page, .len = PAGE};
        good = ioctl(fault_file, UFFDIO_COPY, &copy) == 0 && good;
    }
    return good && other >= 0 ? NULL : "wrong";
}

static void *open_slow_name(void *name) {
    return opens((int)syscall(SYS_openat, AT_FDCWD, name, O_RDWR)) ? NULL : "wrong";
}

static void test_slow_memory(void) {
    struct uffdio_api api = {.api = UFFD_API};
    struct uffdio_register range = {.mode = UFFDIO_REGISTER_MODE_MISSING};
    pthread_t threads[SLOW_NAMES + 1];
    void *wrong;
    bool good = true;
    fault_pages = mmap(NULL, SLOW_NAMES * PAGE, PROT_READ | PROT_WRITE, MAP_PRIVATE | MAP_ANONYMOUS, -1, 0);
    fault_file = (int)syscall(SYS_userfaultfd, O_CLOEXEC);
    range.range.start = (uintptr_t)fault_pages;
    range.range.len = SLOW_NAMES * PAGE;
    if (fault_file < 0 || ioctl(fault_file, UFFDIO_API, &api) || ioctl(fault_file, UFFDIO_REGISTER, &range)) {
        leave_out("memory that a program provides itself, which isn't allowed here");
        return;
    }
    test("while names wait for memory that a program provides, the others' calls are answered");
    good = pthread_create(&threads[SLOW_NAMES], NULL, provide_names, NULL) == 0;
    for (int i = 0; i < SLOW_NAMES; i++)
        good = pthread_create(&threads[i], NULL, open_slow_name, fault_pages + i * PAGE) == 0 && good;
    for (int i = 0; i <= SLOW_NAMES; i++)
        good = pthread_join(threads[i], &wrong) == 0 && !wrong && good;
    CHECK(good);
    munmap(fault_pages, SLOW_NAMES * PAGE);
    close(fault_file);
}

#define CONFIG "/sys/kernel/config/gpio-sim"
#define TREE_LINK "/sys/bus/gpio/devices/gpiochip0"

static bool reads_as(int file, const char *expected) {
    char text[64] = "";
    ssize_t length = file < 0 ? -1 : pread(file, text, sizeof text - 1, 0);
    return length >= 0 && close(file) == 0 && strcmp(text, expected) == 0;
}

static void test_tree_folders(void) {
    test("names in gpio-sim's file system are found from its open folders");
    int config = open(CONFIG, O_RDONLY | O_DIRECTORY), device = -1;
    CHECK(mkdirat(config, "sim", 0755) == 0 && (device = openat(config, "sim", O_RDONLY | O_DIRECTORY)) >= 0);
    CHECK(mkdirat(device, "bank", 0755) == 0 && reads_as(openat(device, "bank/num_lines", O_RDONLY), "1\n"));
    CHECK(faccessat(device, "../sim/live", R_OK | W_OK, 0) == 0 && faccessat(device, "../other", F_OK, 0) < 0);
    CHECK(reads_as(openat(device, "../../../../bus/gpio/devices/gpiochip0/dev", O_RDONLY), "254:0\n"));
    CHECK(opens(openat(device, "../../../../../dev/gpiochip0", O_RDWR)));
    CHECK_ERROR(openat(device, "../../../../../etc/none", O_RDONLY), ENOENT);
    CHECK(unlinkat(device, "bank", AT_REMOVEDIR) == 0 && unlinkat(config, "../gpio-sim/sim", AT_REMOVEDIR) == 0);
    CHECK(mkdirat(device, "bank", 0755) < 0 && openat(device, "live", O_RDONLY) < 0);
    close(device);
    close(config);
}

static void test_tree_files(void) {
    struct stat status;
    struct statx extended;
    uint8_t bytes[64] = {0};
    int file = open(TREE_LINK "/dev", O_RDONLY), folder = open(CONFIG, O_RDONLY | O_DIRECTORY);
    test("GPIO commands on its files, and their status, are the kernel's");
    CHECK_ERROR(ioctl(file, GPIO_GET_CHIPINFO_IOCTL, bytes), ENOTTY);
    CHECK_ERROR(ioctl(folder, GPIO_V2_LINE_GET_VALUES_IOCTL, bytes), ENOTTY);
    CHECK(fstat(file, &status) == 0 && S_ISREG(status.st_mode));
    CHECK(syscall(SYS_fstat, folder, &status) == 0 && S_ISDIR(status.st_mode));
    CHECK(statx(folder, "", AT_EMPTY_PATH, STATX_BASIC_STATS, &extended) == 0 && S_ISDIR(extended.stx_mode));
    close(folder);
    close(file);
}

static void test_tree_mapped(void) {
    int file = open(TREE_LINK "/dev", O_RDONLY), chip = open_chip(0);
    struct gpiochip_info *info = mmap(NULL, PAGE, PROT_READ | PROT_WRITE, MAP_PRIVATE, file, 0);
    test("the structure of a GPIO command may stand in a mapped file of gpio-sim's file system");
    CHECK(info != MAP_FAILED && ioctl(chip, GPIO_GET_CHIPINFO_IOCTL, info) == 0 && info->lines == 8);
    munmap(info, PAGE);
    close(chip);
    close(file);
}

static void test_tree_paths(void) {
    struct stat status;
    char text[64];
    test("wrong paths and changes there fail as the kernel lets them fail");
    CHECK(mkdir(CONFIG "/sim/", 0755) == 0);
    CHECK_ERROR(mkdir(CONFIG "/sim/.", 0755), EEXIST);
    CHECK_ERROR(rmdir(CONFIG "/sim/."), EINVAL);
    CHECK_ERROR(rmdir(CONFIG "/sim/.."), ENOTEMPTY);
    CHECK_ERROR(stat(CONFIG "/sim/live/", &status), ENOTDIR);
    CHECK_ERROR(stat(CONFIG "/sim/live/../live", &status), ENOTDIR);
    CHECK_ERROR(stat(CONFIG "/none/../sim", &status), ENOENT);
    CHECK_ERROR(open(CONFIG "/sim", O_WRONLY), EISDIR);
    CHECK_ERROR(open(CONFIG "/sim/live", O_RDONLY | O_DIRECTORY), ENOTDIR);
    CHECK_ERROR(open(CONFIG "/sim/live", O_WRONLY | O_CREAT | O_EXCL, 0644), EEXIST);
    CHECK_ERROR(open(CONFIG "/sim/new", O_WRONLY | O_CREAT, 0644), EACCES);
    CHECK_ERROR(unlink(CONFIG "/sim"), EISDIR);
    CHECK_ERROR(rename(CONFIG "/sim/live", CONFIG "/sim/dead"), EPERM);
    CHECK_ERROR(rename(CONFIG "/sim/live", "/tmp/live"), EXDEV);
    CHECK_ERROR(link("/etc/passwd", CONFIG "/sim/passwd"), EXDEV);
    CHECK_ERROR(symlink("/etc/passwd", CONFIG "/sim/passwd"), EPERM);
    CHECK_ERROR(mknod(CONFIG "/sim/pipe", S_IFIFO | 0600, 0), EPERM);
    CHECK_ERROR(chmod(CONFIG "/sim/live", 0600), EPERM);
    CHECK_ERROR(chown(CONFIG "/sim/live", 1, 1), EPERM);
    CHECK(truncate(CONFIG "/sim/live", 0) == 0 && rmdir(CONFIG "/sim") == 0);
    test("links there are those of sysfs");
    CHECK(lstat(TREE_LINK, &status) == 0 && S_ISLNK(status.st_mode) && stat(TREE_LINK, &status) == 0);
    CHECK(S_ISDIR(status.st_mode) && readlink(TREE_LINK, text, 8) == 8 && memcmp(text, "../../..", 8) == 0);
    CHECK_ERROR(open(TREE_LINK, O_RDONLY | O_NOFOLLOW), ELOOP);
    CHECK(reads_as(open(TREE_LINK "/../gpiochip0/dev", O_RDONLY), "254:0\n"));
    CHECK_ERROR(stat(TREE_LINK "/../gpiochip1", &status), ENOENT); /* (that one is in another folder) */
}

static void test_tree_memory(void) {
    static const char name[] = CONFIG "/sim";
    char *pages = edge_of_memory(), *nowhere = pages + PAGE;
    test("memory that isn't there makes nothing in gpio-sim's file system");
    CHECK_ERROR((int)syscall(SYS_mkdirat, AT_FDCWD, nowhere, 0755), EFAULT);
    memcpy(nowhere - strlen(name), name, strlen(name));
    CHECK_ERROR((int)syscall(SYS_mkdirat, AT_FDCWD, nowhere - strlen(name), 0755), EFAULT);
    CHECK_ERROR((int)syscall(SYS_renameat2, AT_FDCWD, CONFIG "/board", AT_FDCWD, nowhere, 0), EFAULT);
    CHECK_ERROR((int)syscall(SYS_newfstatat, AT_FDCWD, CONFIG, nowhere, 0), EFAULT);
    CHECK_ERROR((int)syscall(SYS_readlinkat, AT_FDCWD, TREE_LINK, nowhere, 8), EFAULT);
    CHECK_ERROR(access(name, F_OK), ENOENT);
    munmap(pages, PAGE);
}

static void test_names_of_chips(void) {
    struct stat status;
    test("what programs find of chips can neither be removed nor made");
    CHECK_ERROR(unlink("/dev/gpiochip0"), EPERM);
    CHECK_ERROR(rename("/dev/gpiochip0", "/dev/gpiochip5"), EPERM);
    CHECK_ERROR(rename("/dev/gpiochip0", "/tmp/gpiochip0"), EXDEV);
    CHECK_ERROR(mkdir("/dev/gpiochip0", 0755), EEXIST);
    CHECK_ERROR(unlink("/dev/gpiochip7"), ENOENT);
    CHECK_ERROR(mkdir("/sys/bus/gpio/devices/gpiochip7", 0755), EPERM);
    CHECK_ERROR(rmdir("/sys/bus/gpio/devices"), EPERM);
    CHECK_ERROR(open("/sys/bus/gpio/devices", O_TMPFILE | O_RDWR, 0600), EOPNOTSUPP);
    CHECK(opens(open_chip(0)) && stat("/dev/gpiochip7", &status) < 0);
}

static int make_in_chroot(int unused) {
    (void)unused;
    if (chroot(EMPTY_FOLDER) || chdir("/"))
        return 2;
    return mkdir(CONFIG "/sim", 0755) != 0 || !reads_as(open(CONFIG "/sim/live", O_RDONLY), "0\n") ||
           rmdir(CONFIG "/sim") != 0;
}

static int make_as_nobody(int unused) {
    (void)unused;
    if (setgid(NOBODY) || setuid(NOBODY))
        return 2;
    return mkdir(CONFIG "/sim", 0755) != 0 || rmdir(CONFIG "/sim") != 0;
}

static void *make_and_remove(void *argument) {
    char path[64];
    snprintf(path, sizeof path, CONFIG "/sim%u", *(unsigned *)argument);
    for (unsigned turn = 0; turn < 20; turn++)
        if (mkdir(path, 0755) || access(path, F_OK) || rmdir(path))
            return "wrong";
    return NULL;
}

/* More threads than there are receivers: each of these waits for the loop. */
#define MAKERS 40

static void test_makers(void) {
    pthread_t threads[MAKERS];
    unsigned numbers[MAKERS];
    bool good = true;
    test("forty threads make and remove devices at once");
    for (unsigned i = 0; i < MAKERS; i++) {
        numbers[i] = i;
        good = pthread_create(&threads[i], NULL, make_and_remove, &numbers[i]) == 0 && good;
    }
    for (unsigned i = 0; i < MAKERS; i++) {
        void *wrong;
        good = pthread_join(threads[i], &wrong) == 0 && !wrong && good;
    }
    CHECK(good);
}

static void test_file_system(void) {
    test_names_of_chips();
    if (access(CONFIG, F_OK)) {
        leave_out("gpio-sim's file system, which can't be shown here");
        return;
    }
    test_tree_folders();
    test_tree_files();
    test_tree_mapped();
    test_tree_paths();
    test_tree_memory();
    test_makers();
    int in_chroot = end_of(run_child(make_in_chroot, 0)), as_nobody = end_of(run_child(make_as_nobody, 0));
    if (in_chroot == 2 || as_nobody == 2) {
        leave_out("gpio-sim's file system in a chroot and for another user, for which it takes root");
        return;
    }
    test("a program in a chroot, and one that becomes another user, make devices");
    CHECK(in_chroot == 0 && as_nobody == 0);
}

/* Calls without end until nobody answers any more: then files are opened as ever, and chips are gone. */
static int outlive_broker(void) {
    struct stat status;
    int chip = open_chip(0), file = -1;
    if (!is_chip(chip) || puts("begun") < 0 || fflush(stdout))
        return 1;
    while (is_chip(chip)) {
        file = open("/etc/passwd", O_RDONLY);
        if (file < 0 || close(file))
            return 1;
    }
    int error = errno;
    file = open("/etc/passwd", O_RDONLY);
    printf("chip: %s\n", strerror(error));
    printf("file: %s\n", file >= 0 && stat("/etc/passwd", &status) == 0 ? "opened" : strerror(errno));
    printf("open: %s\n", open_chip(0) < 0 ? strerror(errno) : "a chip");
    return 0;
}

int main(int count, char **words) {
    if (count > 1 && strcmp(words[1], "--outlives") == 0)
        return outlive_broker();
    is_exact = count > 1 && strcmp(words[1], "--exact") == 0;
    test_openings();
    test_own_folder();
    test_numbers();
    test_statuses();
    test_listing();
    test_bad_memory();
    test_no_number();
    test_splice();
    test_signals();
    test_interrupted_read();
    test_threads_with_files();
    test_changing_name();
    test_guarded();
    test_places();
    test_other_calls();
    test_overflow_beside();
    test_slow_memory();
    test_reads();
    test_file_system();
    return !test_end();
}
