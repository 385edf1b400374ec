#include "start.h"

#include <errno.h>
#include <fcntl.h>
#include <signal.h>
#include <stdlib.h>
#include <string.h>
#include <sys/mman.h>
#include <sys/prctl.h>
#include <sys/socket.h>
#include <sys/wait.h>
#include <unistd.h>

#include "../report.h"
#include "filter.h"
#include "standby.h"

/* Where Yama's setting stands: with `1` a process may read the memory of its own descendants alone. */
#define YAMA_SCOPE "/proc/sys/kernel/yama/ptrace_scope"

/* What the child reports before it becomes the command: the step that failed, and the error's number. */
enum step { STEP_FILTER, STEP_RUN };

struct failure {
    enum step step;
    int error;
};

/* Room for the file that is handed over. */
union control {
    char bytes[CMSG_SPACE(sizeof(int))];
    struct cmsghdr aligned;
};

static bool send_file(int socket, int file) {
    union control control;
    struct failure none = {STEP_FILTER, 0};
    struct iovec part = {&none, sizeof none};
    struct msghdr message = {
        .msg_iov = &part, .msg_iovlen = 1, .msg_control = control.bytes, .msg_controllen = sizeof control.bytes};
    memset(&control, 0, sizeof control);
    struct cmsghdr *head = CMSG_FIRSTHDR(&message);
    head->cmsg_level = SOL_SOCKET;
    head->cmsg_type = SCM_RIGHTS;
    head->cmsg_len = CMSG_LEN(sizeof file);
    memcpy(CMSG_DATA(head), &file, sizeof file);
    return sendmsg(socket, &message, MSG_NOSIGNAL) == (ssize_t)sizeof none;
}

/* Receives the listener, which the caller owns; or -1 and what failed. */
static int receive_file(int socket, struct failure *failure) {
    union control control;
    struct iovec part = {failure, sizeof *failure};
    struct msghdr message = {
        .msg_iov = &part, .msg_iovlen = 1, .msg_control = control.bytes, .msg_controllen = sizeof control.bytes};
    int file = -1;
    memset(&control, 0, sizeof control);
    ssize_t got = recvmsg(socket, &message, MSG_CMSG_CLOEXEC);
    if (got != (ssize_t)sizeof *failure)
        *failure = (struct failure){STEP_FILTER, got < 0 ? errno : ECHILD};
    else if (CMSG_FIRSTHDR(&message))
        memcpy(&file, CMSG_DATA(CMSG_FIRSTHDR(&message)), sizeof file);
    return file;
}

static _Noreturn void give_up(int socket, enum step step) {
    struct failure failure = {step, errno};
    _exit(
        send(socket, &failure, sizeof failure, MSG_NOSIGNAL) == (ssize_t)sizeof failure ? STATUS_NOT_RUN : STATUS_OWN);
}

/* What the child does. It becomes the command once the broker has the listener. (It receives the word by `recv`, since
 * `read` may be one of the calls that wait for an answer.) */
static _Noreturn void become_command(bool exact, int socket, char *const *words, char *const *environment) {
    sigset_t none;
    char word;
    int listener = filter_install(exact);
    if (listener < 0 || !send_file(socket, listener))
        give_up(socket, STEP_FILTER);
    close(listener);
    if (recv(socket, &word, 1, 0) != 1)
        _exit(STATUS_OWN);
    sigemptyset(&none);
    signal(SIGPIPE, SIG_DFL);
    sigprocmask(SIG_SETMASK, &none, NULL);
    execvpe(words[0], words, environment);
    give_up(socket, STEP_RUN);
}

/* Where a process may read the memory of its descendants alone, daemons that leave their parents have to stay below the
 * broker. */
static void stay_above(void) {
    char scope = '0';
    int file = open(YAMA_SCOPE, O_RDONLY | O_CLOEXEC);
    if (file >= 0 && read(file, &scope, 1) == 1 && scope == '1')
        prctl(PR_SET_CHILD_SUBREAPER, 1, 0, 0, 0);
    if (file >= 0)
        close(file);
}

static void report_filter(int error) {
    switch (error) {
    case EBUSY:
        report("the calls of the command can't be notified of: somebody listens to those of this process already, as a "
               "container or another gpioserve does, and there is one listener at most");
        break;
    case EINVAL:
    case ENOSYS:
        report("the calls of the command can't be notified of: that takes Linux 5.19 or later, with seccomp");
        break;
    default:
        report("the calls of the command can't be notified of: %s", strerror(error));
    }
}

/* Makes what receivers, the loop and the process that stands by share. It lives as long as the broker. */
static bool make_calls(struct notify *notify) {
    int ends[2];
    void *shared = mmap(NULL, sizeof *notify->calls, PROT_READ | PROT_WRITE, MAP_SHARED | MAP_ANONYMOUS, -1, 0);
    if (shared == MAP_FAILED || pipe2(ends, O_CLOEXEC))
        return false;
    notify->calls = shared;
    notify->handed = (struct watch){WATCH_CALLS, ends[0], NULL};
    notify->handed_to = ends[1];
    return true;
}

/* Lets the child become the command, whose listener is there. The error's number, or 0. */
static int let_run(int socket) {
    struct failure failure;
    if (send(socket, "g", 1, MSG_NOSIGNAL) != 1)
        return errno;
    /* (the command's end is closed once it runs) */
    ssize_t got = recv(socket, &failure, sizeof failure, MSG_WAITALL);
    return got == (ssize_t)sizeof failure ? failure.error : 0;
}

/* Starts the child up to where it waits. The socket by which it waits, which the caller owns; or -1, and reported. */
static int start_child(struct notify *notify, pid_t *pid, char *const *words, char *const *environment) {
    int ends[2];
    struct failure failure;
    if (socketpair(AF_UNIX, SOCK_STREAM | SOCK_CLOEXEC, 0, ends)) {
        report_filter(errno);
        return -1;
    }
    *pid = fork();
    if (*pid == 0)
        become_command(notify->exact, ends[1], words, environment);
    close(ends[1]);
    notify->listener = *pid < 0 ? -1 : receive_file(ends[0], &failure);
    if (notify->listener >= 0)
        return ends[0];
    report_filter(*pid < 0 ? errno : failure.error);
    close(ends[0]);
    return -1;
}

enum start_outcome start_command(
    struct notify *notify, pid_t *pid, char *const *words, char *const *environment, int *error) {
    *error = 0;
    if (!call_fits()) {
        report_filter(ENOSYS);
        return START_REFUSED;
    }
    stay_above();
    int socket = start_child(notify, pid, words, environment);
    if (socket < 0)
        return START_REFUSED;
    /* (a process that is forked has no threads but the one that forks: so receivers begin behind that) */
    bool received = make_calls(notify) && standby_start(notify) && notify_receive(notify);
    if (received)
        *error = let_run(socket);
    else
        report("the calls of the command can't be received: %s", strerror(errno));
    close(socket); /* (a child that wasn't let run ends by this) */
    return !received ? START_REFUSED : *error ? START_NOT_RUN : START_DONE;
}
