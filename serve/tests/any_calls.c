/* Makes the filter's calls with any arguments: any_calls [CALLS [SEED]], run by gpioserve --way notify. It has to end,
 * and the broker has to serve as before. */
#include <fcntl.h>
#include <linux/gpio.h>
#include <linux/openat2.h>
#include <pthread.h>
#include <stdatomic.h>
#include <stdbool.h>
#include <stdint.h>
#include <stdio.h>
#include <stdlib.h>
#include <string.h>
#include <sys/ioctl.h>
#include <sys/mman.h>
#include <sys/syscall.h>
#include <unistd.h>

#define PAGE 4096
/* Files that the calls are about, and that are closed from time to time. */
#define FIRST_FILE 3
#define FILES 40
/* The longest name, which is longer than the kernel takes. */
#define LONG_NAME (2 * PAGE)

static uint64_t state;
static char *pages; /* two, of which nothing can be read in the second */

static uint32_t below(uint32_t bound) {
    state = state * 6364136223846793005u + 1442695040888963407u;
    return (uint32_t)(state >> 33) % bound;
}

static const char *const names[] = {"/dev/gpiochip0", "/dev/gpiochip1", "/dev/gpiochip63", "/dev/gpiochip64",
    "gpiochip0", "/dev", "/dev/", "//dev/./gpiochip0", "/dev/../dev/gpiochip0", "/proc/self/root/dev/gpiochip0",
    "/proc/self/fd/3", "/sys/bus/gpio/devices", "/sys/bus/gpio/devices/gpiochip0/dev", "/sys/dev/char/254:0/subsystem",
    "/sys/dev/char/254:99", "/sys/devices/gpioserve/gpiochip0", "/sys/class/gpio", "/proc/self/status", ".", "..", "",
    "/", "/../../../dev/gpiochip0/..", "/dev/gpiochip0/", "/dev/gpiochip0/x", "/dev/null", "/proc/self/exe"};

/* Names of gpio-sim's file system, which may be made and removed. */
#define CONFIG "/sys/kernel/config/gpio-sim"
static const char *const tree_names[] = {CONFIG, CONFIG "/", CONFIG "/a", CONFIG "/a/b", CONFIG "/a/b/line1",
    CONFIG "/a/b/line1/hog", CONFIG "/a/live", CONFIG "/a/b/num_lines", CONFIG "/a/..", CONFIG "/a/b/.",
    CONFIG "/a/../a/b/", CONFIG "/a/live/../live", CONFIG "/board/soc/line3/name", "/sys/kernel/config",
    "/sys/bus/gpio/devices/gpiochip0/..", "/sys/bus/gpio/devices/gpiochip0/sim_gpio1/pull",
    "/sys/devices/platform/gpio-sim.0/gpiochip1/sim_gpio0/value", "/sys/module/gpio_sim/initstate",
    "/sys/dev/char/254:1/../254:0/dev"};

static const int changes[] = {SYS_mkdirat, SYS_mkdirat, SYS_unlinkat, SYS_unlinkat, SYS_renameat2, SYS_linkat,
    SYS_symlinkat, SYS_mknodat, SYS_truncate, SYS_fchmodat, SYS_fchownat};

static const uint32_t commands[] = {GPIO_GET_CHIPINFO_IOCTL, GPIO_V2_GET_LINEINFO_IOCTL,
    GPIO_V2_GET_LINEINFO_WATCH_IOCTL, GPIO_GET_LINEINFO_UNWATCH_IOCTL, GPIO_V2_GET_LINE_IOCTL,
    GPIO_V2_LINE_SET_CONFIG_IOCTL, GPIO_V2_LINE_GET_VALUES_IOCTL, GPIO_V2_LINE_SET_VALUES_IOCTL,
    GPIO_GET_LINEINFO_IOCTL, GPIO_GET_LINEHANDLE_IOCTL, GPIO_GET_LINEEVENT_IOCTL, GPIOHANDLE_GET_LINE_VALUES_IOCTL,
    GPIOHANDLE_SET_LINE_VALUES_IOCTL, GPIOHANDLE_SET_CONFIG_IOCTL, GPIO_GET_LINEINFO_WATCH_IOCTL, 0xb4ff, 0xffffb4ff,
    0xb400, FIONREAD};

static const int calls[] = {
#ifdef SYS_open
    SYS_open, SYS_stat, SYS_lstat, SYS_access, SYS_readlink,
#endif
    SYS_openat, SYS_openat, SYS_openat2, SYS_newfstatat, SYS_statx, SYS_faccessat, SYS_faccessat2, SYS_readlinkat,
    SYS_getxattr, SYS_lgetxattr, SYS_listxattr, SYS_llistxattr, SYS_fstat, SYS_read, SYS_readv};

/* An address: in the first page mostly, at its end, in the second, or none. */
static uint64_t address(void) {
    switch (below(8)) {
    case 0:
        return 0;
    case 1:
        return (uintptr_t)(pages + PAGE);
    case 2:
        return (uintptr_t)(pages + PAGE - below(64));
    case 3:
        return UINT64_C(0xffff800000000000) + below(PAGE);
    default:
        return (uintptr_t)(pages + below(PAGE / 2));
    }
}

/* A name of gpio-sim's file system, or an address at which there is none. */
static uint64_t tree_name(void) {
    const uint64_t nowhere[] = {0, (uintptr_t)(pages + PAGE), UINT64_C(0xffff800000000000)};
    return below(12) ? (uintptr_t)tree_names[below(sizeof tree_names / sizeof *tree_names)] : nowhere[below(3)];
}

/* A call that makes, removes or changes a name: of that file system alone, since it may well be done. */
static long change(void) {
    int number = changes[below(sizeof changes / sizeof *changes)];
    uint64_t any = below(4) ? below(4) * AT_REMOVEDIR : below(1 << 16);
    switch (number) {
    case SYS_renameat2:
    case SYS_linkat:
        return syscall(number, AT_FDCWD, tree_name(), AT_FDCWD, tree_name(), any);
    case SYS_symlinkat:
        return syscall(number, tree_name(), AT_FDCWD, tree_name());
    case SYS_truncate:
        return syscall(number, tree_name(), any);
    default:
        return syscall(number, AT_FDCWD, tree_name(), any, any, 0);
    }
}

static uint64_t name(void) {
    static char room[LONG_NAME];
    if (below(4) == 0)
        return tree_name();
    if (below(6) == 0)
        return address();
    if (below(40) != 0)
        return (uintptr_t)names[below(sizeof names / sizeof *names)];
    memset(room, "/.ag"[below(4)], sizeof room - 1);
    if (below(2))
        memcpy(room, "/dev/gpiochip", strlen("/dev/gpiochip"));
    return (uintptr_t)room;
}

static uint64_t file(void) {
    return below(3) ? FIRST_FILE + below(12) : (uint64_t)(int64_t)AT_FDCWD;
}

/* A command: of a request that is good now and then. */
static long command(void) {
    uint32_t number = commands[below(sizeof commands / sizeof *commands)];
    uint64_t at = address();
    if (at >= (uintptr_t)pages && at < (uintptr_t)pages + PAGE / 2 && below(2)) {
        struct gpio_v2_line_request *asked = memset((void *)(uintptr_t)at, 0, sizeof *asked);
        asked->offsets[0] = below(9);
        asked->num_lines = 1;
        asked->event_buffer_size = below(4);
        asked->config.flags =
            below(2) ? GPIO_V2_LINE_FLAG_OUTPUT : GPIO_V2_LINE_FLAG_INPUT | GPIO_V2_LINE_FLAG_EDGE_RISING;
    }
    return syscall(SYS_ioctl, file(), number, at);
}

/* Flags of an opening. None of them makes a file or empties one, whatever its name is: the name is anybody's. */
static uint64_t opening_flags(void) {
    uint64_t flags = below(3) ? (below(4) ? 0 : O_NONBLOCK) | (below(8) ? 0 : O_DIRECTORY) : below(1 << 22);
    return flags & ~(uint64_t)(O_ACCMODE | O_CREAT | O_TRUNC | (O_TMPFILE & ~O_DIRECTORY));
}

/* openat2, with the structure of such flags, or with one that isn't there. */
static long open_by_structure(void) {
    struct open_how how = {.flags = opening_flags(), .resolve = below(4) ? 0 : below(64)};
    uint64_t nowhere = below(2) ? 0 : (uintptr_t)(pages + PAGE);
    return syscall(SYS_openat2, file(), name(), below(3) ? (uint64_t)(uintptr_t)&how : nowhere,
        below(2) ? sizeof how : below(PAGE));
}

/* One call. A read may wait for ever, so it is one of a file that doesn't. */
static long call(void) {
    int number = calls[below(sizeof calls / sizeof *calls)];
    uint64_t flags = below(1 << 14);
    if (below(3) == 0)
        return command();
    if (below(6) == 0)
        return change();
    switch (number) {
    case SYS_read:
    case SYS_readv: {
        uint64_t which = FIRST_FILE + below(FILES);
        int shown = fcntl((int)which, F_GETFL);
        if (shown < 0 || fcntl((int)which, F_SETFL, shown | O_NONBLOCK))
            return 0;
        return syscall(number, which, address(), below(3) ? below(200) : 1 + below(3));
    }
    case SYS_fstat:
        return syscall(number, file(), address());
#ifdef SYS_open
    case SYS_open:
        return syscall(number, name(), opening_flags(), 0);
#endif
    case SYS_openat:
        return syscall(number, file(), name(), opening_flags(), 0);
    case SYS_openat2:
        return open_by_structure();
    case SYS_statx:
        return syscall(number, file(), name(), below(2) ? 0 : flags, below(PAGE), address());
    case SYS_newfstatat:
    case SYS_faccessat:
    case SYS_faccessat2:
    case SYS_readlinkat:
        return syscall(number, file(), name(), address(), below(2) ? 0 : flags);
    default:
        return syscall(number, name(), below(2) ? address() : flags, address(), below(300));
    }
}

/* Changes what the calls of the other thread refer to, while these are made. */
static atomic_bool is_over;

static void *change_memory(void *unused) {
    uint32_t value = 1;
    while (!atomic_load(&is_over)) {
        value = value * 1664525 + 1013904223;
        pages[value % PAGE] = (char)(value >> 24);
    }
    return unused;
}

static void close_files(void) {
    for (int number = FIRST_FILE; number < FIRST_FILE + FILES; number++)
        close(number);
}

/* Whether the broker serves: a chip is opened. What was open before is closed by then, as the file system's answer
 * shows, so that nothing is left of it where leaks are looked for. */
static bool still_serves(void) {
    syscall(SYS_close_range, FIRST_FILE, ~0u, 0);
    access(CONFIG, F_OK);
    int chip = open("/dev/gpiochip0", O_RDWR);
    struct gpiochip_info info;
    return chip >= 0 && ioctl(chip, GPIO_GET_CHIPINFO_IOCTL, &info) == 0 && info.lines == 8;
}

int main(int count, char **words) {
    long turns = count > 1 ? atol(words[1]) : 20000, done = 0;
    pthread_t other;
    state = count > 2 ? strtoull(words[2], NULL, 10) : 1;
    pages = mmap(NULL, 2 * PAGE, PROT_READ | PROT_WRITE, MAP_PRIVATE | MAP_ANONYMOUS, -1, 0);
    if (pages == MAP_FAILED || mprotect(pages + PAGE, PAGE, PROT_NONE) ||
        pthread_create(&other, NULL, change_memory, NULL))
        return 2;
    for (long i = 0; i < turns; i++) {
        done += call() >= 0;
        if (below(200) == 0)
            close_files();
    }
    atomic_store(&is_over, true);
    pthread_join(other, NULL);
    bool serves = still_serves();
    printf(
        "%ld calls, %ld of them done; the broker %s\n", turns, done, serves ? "serves as before" : "no longer serves");
    return !serves;
}
