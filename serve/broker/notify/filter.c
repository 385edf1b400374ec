#include "filter.h"

#include <errno.h>
#include <fcntl.h>
#include <linux/audit.h>
#include <linux/seccomp.h>
#include <stddef.h>
#include <stdint.h>
#include <stdlib.h>
#include <sys/prctl.h>
#include <sys/syscall.h>
#include <unistd.h>

#include "../../uapi.h"
#include "operations.h"

/* Since Linux 5.19: once the broker has received a call, only a fatal signal ends it. */
#ifndef SECCOMP_FILTER_FLAG_WAIT_KILLABLE_RECV
#define SECCOMP_FILTER_FLAG_WAIT_KILLABLE_RECV (1UL << 5)
#endif

#if defined(__x86_64__)
#define OWN_ARCHITECTURE AUDIT_ARCH_X86_64
#elif defined(__aarch64__)
#define OWN_ARCHITECTURE AUDIT_ARCH_AARCH64
#else
#error "the number of this architecture in filters isn't known here"
#endif

/* Where a command's number has its type: bits 8 to 15. */
#define TYPE_SHIFT 8
#define TYPE_MASK 0xff
/* The place of a command's number, and of the flags of newfstatat and statx, among the arguments. */
#define COMMAND_ARGUMENT 1

/* Calls on open files, few of which are chips and requests. */
static const int exact_calls[] = {SYS_read, SYS_readv, SYS_fstat};

static void put(struct filter *filter, unsigned code, uint32_t value, uint8_t if_true, uint8_t if_false) {
    if (filter->count == FILTER_STEPS)
        abort();
    filter->steps[filter->count++] = (struct sock_filter){(uint16_t)code, if_true, if_false, value};
}

static void load(struct filter *filter, size_t at) {
    put(filter, BPF_LD | BPF_W | BPF_ABS, (uint32_t)at, 0, 0);
}

/* Loads the low half of an argument, which both architectures have first. */
static void load_argument(struct filter *filter, int which) {
    load(filter, offsetof(struct seccomp_data, args) + sizeof(uint64_t) * (size_t)which);
}

static void end_with(struct filter *filter, uint32_t action) {
    put(filter, BPF_RET | BPF_K, action, 0, 0);
}

/* Notifies of the call with this number. The call's number is loaded, here and below. */
static void notify_of(struct filter *filter, int number) {
    put(filter, BPF_JMP | BPF_JEQ | BPF_K, (uint32_t)number, 0, 1);
    end_with(filter, SECCOMP_RET_USER_NOTIF);
}

/* Notifies of the call with this number, unless an argument has one of these bits. */
static void notify_unless(struct filter *filter, int number, int argument, uint32_t bits) {
    put(filter, BPF_JMP | BPF_JEQ | BPF_K, (uint32_t)number, 0, 4);
    load_argument(filter, argument);
    put(filter, BPF_JMP | BPF_JSET | BPF_K, bits, 1, 0);
    end_with(filter, SECCOMP_RET_USER_NOTIF);
    end_with(filter, SECCOMP_RET_ALLOW);
}

/* Notifies of the commands of GPIO. */
static void notify_of_commands(struct filter *filter) {
    put(filter, BPF_JMP | BPF_JEQ | BPF_K, SYS_ioctl, 0, 6);
    load_argument(filter, COMMAND_ARGUMENT);
    put(filter, BPF_ALU | BPF_RSH | BPF_K, TYPE_SHIFT, 0, 0);
    put(filter, BPF_ALU | BPF_AND | BPF_K, TYPE_MASK, 0, 0);
    put(filter, BPF_JMP | BPF_JEQ | BPF_K, UAPI_GPIO, 0, 1);
    end_with(filter, SECCOMP_RET_USER_NOTIF);
    end_with(filter, SECCOMP_RET_ALLOW);
}

/* Notifies of a call that takes a name. The C library's fstat is a call of this kind without a name, which has
 * AT_EMPTY_PATH set. */
static void notify_of_name(struct filter *filter, const struct operation *operation, bool exact) {
    bool of_status = operation->kind == OPERATION_STATUS || operation->kind == OPERATION_STATUS_EXTENDED;
    if (of_status && operation->flags != OPERATION_NONE && !exact)
        notify_unless(filter, operation->number, operation->flags, AT_EMPTY_PATH);
    else
        notify_of(filter, operation->number);
}

void filter_write(struct filter *filter, bool exact) {
    filter->count = 0;
    load(filter, offsetof(struct seccomp_data, arch));
    /* calls of 32-bit programs go on to the kernel: such programs find the system's own chips, or none */
    put(filter, BPF_JMP | BPF_JEQ | BPF_K, OWN_ARCHITECTURE, 1, 0);
    end_with(filter, SECCOMP_RET_ALLOW);
    load(filter, offsetof(struct seccomp_data, nr));
    notify_of_commands(filter);
    for (size_t i = 0; exact && i < sizeof exact_calls / sizeof *exact_calls; i++)
        notify_of(filter, exact_calls[i]);
    for (size_t i = 0; i < operations_count; i++)
        notify_of_name(filter, &operations[i], exact);
    /* what an io_uring opens would bypass the filter; programs do without it where there is none */
    put(filter, BPF_JMP | BPF_JEQ | BPF_K, SYS_io_uring_setup, 0, 1);
    end_with(filter, SECCOMP_RET_ERRNO | ENOSYS);
    end_with(filter, SECCOMP_RET_ALLOW);
}

int filter_install(bool exact) {
    struct filter filter;
    filter_write(&filter, exact);
    struct sock_fprog program = {filter.count, filter.steps};
    /* SPEC_ALLOW: this filter is no sandbox, so no program pays for the kernel's guard against speculation */
    const unsigned flags =
        SECCOMP_FILTER_FLAG_NEW_LISTENER | SECCOMP_FILTER_FLAG_WAIT_KILLABLE_RECV | SECCOMP_FILTER_FLAG_SPEC_ALLOW;
    /* where the user is allowed to (root), setuid programs stay what they are */
    int listener = (int)syscall(SYS_seccomp, SECCOMP_SET_MODE_FILTER, flags, &program);
    if (listener >= 0 || errno != EACCES)
        return listener;
    if (prctl(PR_SET_NO_NEW_PRIVS, 1, 0, 0, 0))
        return -1;
    return (int)syscall(SYS_seccomp, SECCOMP_SET_MODE_FILTER, flags, &program);
}
