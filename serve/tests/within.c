/* Runs a command under limits that systems set: within LIMIT COMMAND [ARGUMENT ..].
 *
 *   old         there are no notifications, as before Linux 5.19
 *   none        there is no seccomp
 *   container   what containers refuse: namespaces, mounts, and what looks into other processes
 *   spaces      there are no user name spaces, as with user.max_user_namespaces 0. For root alone, so that programs may
 *               be setuid within */
#include <errno.h>
#include <linux/filter.h>
#include <linux/sched.h>
#include <linux/seccomp.h>
#include <stddef.h>
#include <stdio.h>
#include <string.h>
#include <sys/prctl.h>
#include <sys/syscall.h>
#include <unistd.h>

#define MOST_STEPS 64

static const int of_container[] = {SYS_unshare, SYS_setns, SYS_mount, SYS_umount2, SYS_pivot_root, SYS_fsopen,
    SYS_move_mount, SYS_open_tree, SYS_kcmp, SYS_pidfd_getfd, SYS_bpf, SYS_userfaultfd, SYS_perf_event_open,
    SYS_open_by_handle_at, SYS_keyctl};
static const int of_seccomp[] = {SYS_seccomp};

/* Refuses so many system calls with an error. Whether that was done. */
static int refuse(const int *numbers, size_t count, int error) {
    struct sock_filter steps[MOST_STEPS] = {BPF_STMT(BPF_LD | BPF_W | BPF_ABS, offsetof(struct seccomp_data, nr))};
    unsigned short length = 1;
    for (size_t i = 0; i < count; i++) {
        steps[length++] = (struct sock_filter)BPF_JUMP(BPF_JMP | BPF_JEQ | BPF_K, (unsigned)numbers[i], 0, 1);
        steps[length++] = (struct sock_filter)BPF_STMT(BPF_RET | BPF_K, SECCOMP_RET_ERRNO | (unsigned)error);
    }
    steps[length++] = (struct sock_filter)BPF_STMT(BPF_RET | BPF_K, SECCOMP_RET_ALLOW);
    struct sock_fprog program = {length, steps};
    return prctl(PR_SET_NO_NEW_PRIVS, 1, 0, 0, 0) == 0 &&
           syscall(SYS_seccomp, SECCOMP_SET_MODE_FILTER, 0, &program) == 0;
}

/* Refuses `unshare` of user name spaces as the kernel does where there may be none. */
static int refuse_user_spaces(void) {
    struct sock_filter steps[] = {BPF_STMT(BPF_LD | BPF_W | BPF_ABS, offsetof(struct seccomp_data, nr)),
        BPF_JUMP(BPF_JMP | BPF_JEQ | BPF_K, SYS_unshare, 0, 3),
        BPF_STMT(BPF_LD | BPF_W | BPF_ABS, offsetof(struct seccomp_data, args)),
        BPF_JUMP(BPF_JMP | BPF_JSET | BPF_K, CLONE_NEWUSER, 0, 1),
        BPF_STMT(BPF_RET | BPF_K, SECCOMP_RET_ERRNO | ENOSPC), BPF_STMT(BPF_RET | BPF_K, SECCOMP_RET_ALLOW)};
    struct sock_fprog program = {sizeof steps / sizeof *steps, steps};
    return syscall(SYS_seccomp, SECCOMP_SET_MODE_FILTER, 0, &program) == 0;
}

static int limit(const char *name) {
    if (strcmp(name, "spaces") == 0)
        return refuse_user_spaces();
    if (strcmp(name, "old") == 0)
        return refuse(of_seccomp, 1, EINVAL);
    if (strcmp(name, "none") == 0)
        return refuse(of_seccomp, 1, ENOSYS);
    return strcmp(name, "container") == 0 && refuse(of_container, sizeof of_container / sizeof *of_container, EPERM);
}

int main(int count, char **words) {
    if (count < 3 || !limit(words[1])) {
        fputs("within: the limit can't be set\n", stderr);
        return 125;
    }
    execvp(words[2], words + 2);
    perror(words[2]);
    return 127;
}
