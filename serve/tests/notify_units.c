/* The filter over calls that are made up, names and where they lead, and what a queue keeps: without a broker. */
#include <errno.h>
#include <fcntl.h>
#include <linux/audit.h>
#include <linux/seccomp.h>
#include <stddef.h>
#include <stdint.h>
#include <stdio.h>
#include <stdlib.h>
#include <string.h>
#include <sys/stat.h>
#include <sys/syscall.h>
#include <unistd.h>

#include "../broker/notify/filter.h"
#include "../broker/notify/flow.h"
#include "../broker/notify/lookup.h"
#include "../broker/notify/operations.h"

#if defined(__x86_64__)
#define ARCHITECTURE AUDIT_ARCH_X86_64
#define OTHER_ARCHITECTURE AUDIT_ARCH_I386
#else
#define ARCHITECTURE AUDIT_ARCH_AARCH64
#define OTHER_ARCHITECTURE AUDIT_ARCH_ARM
#endif
/* What no filter answers. */
#define NO_ACTION 1u
/* Numbers of system calls that are tried. */
#define MOST_NUMBER 600
/* The folder of a broker that there isn't. */
#define HOME "/tmp/home"

static unsigned passed, failed;

static void count(bool good, const char *name) {
    printf("%s %s\n", good ? "ok" : "FAILED", name);
    *(good ? &passed : &failed) += 1;
}

/* Where a jump goes to; behind the filter's end where it isn't one of those that filters have. */
static size_t jump(const struct filter *filter, size_t at, uint32_t value) {
    const struct sock_filter *step = &filter->steps[at];
    switch (step->code) {
    case BPF_JMP | BPF_JEQ | BPF_K:
        return at + 1 + (value == step->k ? step->jt : step->jf);
    case BPF_JMP | BPF_JSET | BPF_K:
        return at + 1 + (value & step->k ? step->jt : step->jf);
    default:
        return filter->count;
    }
}

/* Runs a filter over a call, as the kernel does. Its action, or NO_ACTION where it does what no filter may. */
static uint32_t run(const struct filter *filter, const struct seccomp_data *data) {
    uint32_t value = 0;
    for (size_t at = 0; at < filter->count;) {
        const struct sock_filter *step = &filter->steps[at];
        switch (step->code) {
        case BPF_LD | BPF_W | BPF_ABS:
            if (step->k % sizeof value != 0 || step->k + sizeof value > sizeof *data)
                return NO_ACTION;
            memcpy(&value, (const char *)data + step->k, sizeof value);
            at++;
            break;
        case BPF_ALU | BPF_RSH | BPF_K:
            value >>= step->k;
            at++;
            break;
        case BPF_ALU | BPF_AND | BPF_K:
            value &= step->k;
            at++;
            break;
        case BPF_RET | BPF_K:
            return step->k;
        default:
            at = jump(filter, at, value);
        }
    }
    return NO_ACTION;
}

/* The action for a call of this number, with one argument set. */
static uint32_t action(bool exact, int number, int argument, uint64_t value) {
    struct filter filter;
    struct seccomp_data data = {.nr = number, .arch = ARCHITECTURE};
    data.args[argument] = value;
    filter_write(&filter, exact);
    return run(&filter, &data);
}

static void test_commands(void) {
    bool good = true;
    for (uint32_t type = 0; type <= 0xff; type++) {
        uint32_t expected = type == 0xb4 ? SECCOMP_RET_USER_NOTIF : SECCOMP_RET_ALLOW;
        good = good && action(false, SYS_ioctl, 1, 0xc2500007u | type << 8) == expected &&
               action(true, SYS_ioctl, 1, 0xffff000000000007u | type << 8) == expected;
    }
    count(good, "commands of type 0xB4 are notified of, and no others");
}

/* Whether a call is notified of by its number alone. */
static bool is_by_number(int number, bool exact) {
    const struct operation *operation = operation_of(number);
    if (number == SYS_read || number == SYS_readv || number == SYS_fstat)
        return exact;
    return operation != NULL;
}

static void test_numbers(void) {
    bool good = true;
    for (int exact = 0; exact <= 1; exact++) {
        for (int number = 0; number < MOST_NUMBER; number++) {
            uint32_t expected = number == SYS_io_uring_setup       ? SECCOMP_RET_ERRNO | ENOSYS
                                : is_by_number(number, exact == 1) ? SECCOMP_RET_USER_NOTIF
                                                                   : SECCOMP_RET_ALLOW;
            good = good && action(exact == 1, number, 5, 7) == expected;
        }
    }
    count(good, "of all numbers those are notified of that take names, and reads where it is to be exact");
    count(operation_of(SYS_openat) && operation_of(SYS_statx) && operation_of(SYS_readlinkat) &&
              operation_of(SYS_mkdirat) && operation_of(SYS_renameat2) && !operation_of(SYS_read) &&
              !operation_of(SYS_execve) && !operation_of(SYS_chdir),
        "openat and its kin take names");
}

static void test_open_files(void) {
    count(action(false, SYS_newfstatat, 3, AT_EMPTY_PATH) == SECCOMP_RET_ALLOW &&
              action(false, SYS_newfstatat, 3, AT_EMPTY_PATH | AT_SYMLINK_NOFOLLOW) == SECCOMP_RET_ALLOW &&
              action(false, SYS_statx, 2, AT_EMPTY_PATH) == SECCOMP_RET_ALLOW &&
              action(false, SYS_newfstatat, 3, AT_SYMLINK_NOFOLLOW) == SECCOMP_RET_USER_NOTIF,
        "the status of an open file is none of the broker's");
    count(action(true, SYS_newfstatat, 3, AT_EMPTY_PATH) == SECCOMP_RET_USER_NOTIF &&
              action(true, SYS_statx, 2, AT_EMPTY_PATH) == SECCOMP_RET_USER_NOTIF,
        "but it is where it is to be exact");
}

static void test_architectures(void) {
    struct filter filter;
    bool good = true;
    filter_write(&filter, true);
    for (int number = 0; number < MOST_NUMBER; number++) {
        struct seccomp_data data = {.nr = number, .arch = OTHER_ARCHITECTURE, .args = {0, 0xb400}};
        good = good && run(&filter, &data) == SECCOMP_RET_ALLOW;
        data.arch = ARCHITECTURE;
        data.nr = number | 0x40000000;
        good = good && run(&filter, &data) == SECCOMP_RET_ALLOW;
    }
    count(good, "calls of 32-bit programs and of x32 go on to the kernel");
}

/* Looks a name up as this process says it. */
static struct lookup look(const char *name, bool follow) {
    static struct lookup found;
    const struct lookup_from from = {HOME, getpid(), AT_FDCWD, false};
    lookup_name(&found, &from, name, follow);
    return found;
}

/* Whether a name is the broker's, at this path in its folder; or none of its where the path is NULL. */
static bool leads(const char *name, const char *path, int chip) {
    struct lookup found = look(name, true);
    bool good = path ? found.ours && strcmp(found.path, path) == 0 && found.chip == chip : !found.ours;
    if (!good)
        printf("  %s: %s %d\n", name, found.ours ? found.path : "not the broker's", found.chip);
    return good;
}

static void test_names(void) {
    count(leads("/dev/gpiochip0", HOME "/root/dev/gpiochip0", 0) &&
              leads("/dev/gpiochip63", HOME "/root/dev/gpiochip63", 63) &&
              leads("//dev/./gpiochip10", HOME "/root/dev/gpiochip10", 10) &&
              leads("/../dev//gpiochip7", HOME "/root/dev/gpiochip7", 7) &&
              leads("/dev/../dev/gpiochip1", HOME "/root/dev/gpiochip1", 1),
        "names of chips, however they are written");
    count(leads("/dev/gpiochip64", HOME "/root/dev/gpiochip64", -1) &&
              leads("/dev/gpiochip01", HOME "/root/dev/gpiochip01", -1) &&
              leads("/dev/gpiochip", HOME "/root/dev/gpiochip", -1) &&
              leads("/dev/gpiochip0/", HOME "/root/dev/gpiochip0/", -1) &&
              leads("/dev/gpiochip0x", HOME "/root/dev/gpiochip0x", -1),
        "names as chips', of which there are none");
    count(leads("/sys/bus/gpio", HOME "/root/sys/bus/gpio", -1) &&
              leads("/sys/bus/gpio/devices/", HOME "/root/sys/bus/gpio/devices/", -1) &&
              leads("/sys/bus/gpio/.", HOME "/root/sys/bus/gpio/.", -1) &&
              leads("/sys/dev/char/254:3/subsystem", HOME "/root/sys/dev/char/254:3/subsystem", -1) &&
              leads("/sys/devices/gpioserve", HOME "/root/sys/devices/gpioserve", -1) &&
              leads("/dev", HOME "/root/dev", -1),
        "names below /sys, and /dev itself");
    count(leads("/dev/null", NULL, 0) && leads("/sys/bus/gpios", NULL, 0) && leads("/sys/dev/char/25:0", NULL, 0) &&
              leads("/etc/passwd", NULL, 0) && leads("", NULL, 0) && leads("gpiochip0", NULL, 0) &&
              leads("/", NULL, 0) && leads("/x/dev/gpiochip0", NULL, 0),
        "names of others");
    struct lookup behind = look("/dev/gpiochip0/../null", true);
    count(
        behind.ours && behind.error == ENOENT && behind.chip == -1, "there is nothing behind a chip that there isn't");
}

static void test_relative(void) {
    bool good = chdir("/dev") == 0 && leads("gpiochip2", HOME "/root/dev/gpiochip2", 2) &&
                leads("./gpiochip2", HOME "/root/dev/gpiochip2", 2) && leads(".", HOME "/root/dev", -1) &&
                leads("../dev/gpiochip2", HOME "/root/dev/gpiochip2", 2) &&
                leads("../sys/bus/gpio", HOME "/root/sys/bus/gpio", -1) && leads("null", NULL, 0);
    good = good && chdir("/sys/dev/char") == 0 && leads("254:0/dev", HOME "/root/sys/dev/char/254:0/dev", -1);
    good = good && chdir("/") == 0 && leads("dev/gpiochip2", HOME "/root/dev/gpiochip2", 2);
    count(good, "names that are relative to a folder");
}

static void test_links(void) {
    char folder[] = "/tmp/notify_units.XXXXXX", path[64], long_name[PATH_MAX];
    bool good = mkdtemp(folder) != NULL;
    snprintf(path, sizeof path, "%s/link", folder);
    good = good && symlink("/dev/gpiochip4", path) == 0 && leads(path, HOME "/root/dev/gpiochip4", 4);
    good = good && !look(path, false).ours && chdir(folder) == 0 && leads("link", HOME "/root/dev/gpiochip4", 4);
    good = good && unlink(path) == 0 && symlink("../../dev/gpiochip4", path) == 0;
    good = good && leads(path, HOME "/root/dev/gpiochip4", 4) && leads("link", HOME "/root/dev/gpiochip4", 4);
    unlink(path);
    count(good, "a link to a chip is followed where links are");
    memset(long_name, '/', sizeof long_name);
    long_name[sizeof long_name - 1] = 0;
    good = leads(long_name, NULL, 0);
    memset(long_name, 'd', sizeof long_name - 1);
    memcpy(long_name, "/dev/", strlen("/dev/"));
    count(good && leads(long_name, NULL, 0) && chdir("/") == 0 && rmdir(folder) == 0, "names that are too long");
}

/* What gpio-sim's file system has in these tests, in a folder that is made for them: folders, a file and a link. */
static const char *const tree_folders[] = {"/view", "/view/sys", "/view/sys/bus", "/view/sys/bus/gpio",
    "/view/sys/bus/gpio/devices", "/view/sys/devices", "/view/sys/devices/platform",
    "/view/sys/devices/platform/gpio-sim.0", "/view/sys/devices/platform/gpio-sim.0/gpiochip0", "/view/sys/kernel",
    "/view/sys/kernel/config", "/view/sys/kernel/config/gpio-sim", "/view/sys/kernel/config/gpio-sim/sim"};
#define TREE_FILE "/view/sys/kernel/config/gpio-sim/sim/live"
#define TREE_LINK "/view/sys/bus/gpio/devices/gpiochip0"
#define TREE_LINK_TEXT "../../../devices/platform/gpio-sim.0/gpiochip0"

static char tree_home[] = "/tmp/notify_units.XXXXXX";

static const char *in_tree_home(const char *name) {
    static char path[PATH_MAX];
    snprintf(path, sizeof path, "%s%s", tree_home, name);
    return path;
}

static bool make_tree(void) {
    bool made = mkdtemp(tree_home) != NULL;
    for (size_t i = 0; made && i < sizeof tree_folders / sizeof *tree_folders; i++)
        made = mkdir(in_tree_home(tree_folders[i]), 0700) == 0;
    int file = made ? open(in_tree_home(TREE_FILE), O_WRONLY | O_CREAT, 0600) : -1;
    return file >= 0 && close(file) == 0 && symlink(TREE_LINK_TEXT, in_tree_home(TREE_LINK)) == 0;
}

static void remove_tree(void) {
    unlink(in_tree_home(TREE_FILE));
    unlink(in_tree_home(TREE_LINK));
    for (size_t i = sizeof tree_folders / sizeof *tree_folders; i > 0; i--)
        rmdir(in_tree_home(tree_folders[i - 1]));
    rmdir(tree_home);
}

/* Whether a name leads to this path of the tree; or nowhere, with this error; or is none of its. */
static bool leads_in_tree(const char *name, const char *path, int error) {
    static struct lookup found;
    const struct lookup_from from = {tree_home, getpid(), AT_FDCWD, true};
    lookup_name(&found, &from, name, true);
    bool good = found.error == error && found.ours == (path || error) &&
                (!path || (strcmp(found.path, in_tree_home(path)) == 0 && found.in_view));
    if (!good)
        printf("  %s: %s, error %d\n", name, found.ours && !found.error ? found.path : "no path", found.error);
    return good;
}

#define CONFIG "/sys/kernel/config/gpio-sim"

static void test_tree(void) {
    struct lookup hidden = look(CONFIG "/sim", true), shared = look("/sys/bus/gpio/devices", true);
    count(!hidden.ours && hidden.is_tree && shared.ours && shared.is_shared && !shared.in_view,
        "names of gpio-sim's file system are the broker's once it is shown");
    if (!make_tree()) {
        count(false, "a folder for names can be made");
        return;
    }
    count(leads_in_tree(CONFIG "/sim/live", "/view" CONFIG "/sim/live", 0) &&
              leads_in_tree("/sys/bus/gpio", "/view/sys/bus/gpio", 0) && leads_in_tree("/sys/kernel", NULL, 0) &&
              leads_in_tree("/sys/kernel/config/other", NULL, 0) &&
              leads_in_tree(CONFIG "/sim/live/", "/view" CONFIG "/sim/live/", 0) &&
              leads_in_tree(CONFIG "/sim/.", "/view" CONFIG "/sim/.", 0),
        "and lead into it");
    count(leads_in_tree(CONFIG "/sim/../sim//live", "/view" CONFIG "/sim/live", 0) &&
              leads_in_tree(CONFIG "/none/../sim", NULL, ENOENT) &&
              leads_in_tree(CONFIG "/sim/live/../live", NULL, ENOTDIR) &&
              leads_in_tree(CONFIG "/sim/../../../../../etc/passwd", NULL, 0) &&
              leads_in_tree("/sys/bus/gpio/devices/gpiochip0/../../gpio-sim.0/gpiochip0",
                  "/view/sys/devices/platform/gpio-sim.0/gpiochip0", 0),
        "`..` leads there to where the kernel says: behind links, and nowhere behind what is no folder");
    count(chdir(in_tree_home("/view" CONFIG "/sim")) == 0 &&
              leads_in_tree("../sim/live", "/view" CONFIG "/sim/live", 0) &&
              leads_in_tree("../../../../bus/gpio", "/view/sys/bus/gpio", 0) &&
              leads_in_tree("../../../../../etc", NULL, 0) && leads_in_tree("live", NULL, 0) && chdir("/") == 0,
        "names that are relative to a folder of it");
    remove_tree();
}

static void test_hiding(void) {
    char view[] = HOME "/view/sys/bus/gpio";
    lookup_hide_home(HOME, view);
    count(strcmp(view, "/sys/bus/gpio") == 0, "paths in gpio-sim's file system are hidden too");
    char path[] = HOME "/root/sys/bus/gpio", other[] = HOME "/socket", none[] = "/tmp/homeroot/root/sys";
    lookup_hide_home(HOME, path);
    lookup_hide_home(HOME, other);
    lookup_hide_home(HOME, none);
    count(strcmp(path, "/sys/bus/gpio") == 0 && strcmp(other, HOME "/socket") == 0 &&
              strcmp(none, "/tmp/homeroot/root/sys") == 0,
        "paths in the broker's folder become those that programs know");
}

/* What a queue keeps, against one that takes item after item. */
static bool keeps_as_queue(enum file_kind kind, size_t capacity, size_t waiting, size_t came) {
    size_t first = 0, last = waiting; /* the items that are kept, of all that ever came */
    bool kept_newest = true;
    for (size_t i = 0; i < came; i++) {
        bool is_full = last - first >= capacity;
        kept_newest = kept_newest && !(is_full && kind == FILE_CHIP);
        if (is_full && kind == FILE_CHIP)
            continue;
        first += is_full;
        last++;
    }
    struct flow_kept kept = flow_keep(kind, capacity, waiting, came);
    size_t of_waiting = first < waiting ? waiting - first : 0;
    return kept.waiting == of_waiting && kept.came == last - first - of_waiting;
}

static void test_queues(void) {
    static const enum file_kind kinds[] = {FILE_CHIP, FILE_LINES, FILE_EVENT1};
    bool good = true;
    for (size_t kind = 0; kind < sizeof kinds / sizeof *kinds; kind++)
        for (size_t capacity = 1; capacity <= 20; capacity++)
            for (size_t waiting = 0; waiting <= capacity; waiting++)
                for (size_t came = 0; came <= 30; came++)
                    good = good && keeps_as_queue(kinds[kind], capacity, waiting, came);
    count(good, "what is kept where many come at once is what a queue keeps that takes one after another");
}

int main(void) {
    test_commands();
    test_numbers();
    test_open_files();
    test_architectures();
    test_names();
    test_relative();
    test_links();
    test_tree();
    test_hiding();
    test_queues();
    printf("%u passed, %u failed\n", passed, failed);
    return failed != 0;
}
