#include "standby.h"

#include <errno.h>
#include <fcntl.h>
#include <linux/close_range.h>
#include <signal.h>
#include <stdlib.h>
#include <string.h>
#include <sys/syscall.h>
#include <unistd.h>

#include "../../uapi.h"

/* The numbers of the files that the process has. */
enum { LISTENER, BROKER_ENDS, FIRST_UNUSED };

/* Answers a call: a command on a file of the broker's meets a chip that is gone, all else goes on to the kernel. */
static void answer(struct call *call) {
    if (call->notification.data.nr == SYS_ioctl && call_pipe_of(call, (int)call_argument(call, 0)) != 0)
        call_fail(call, ENODEV);
    else
        call_continue(call);
}

/* Answers the calls that the broker had received. What it was about to do for one isn't done. */
static void answer_left_over(struct notify_calls *calls, int listener) {
    for (size_t i = 0; i < NOTIFY_CALLS; i++) {
        struct call *call = &calls->list[i];
        int state = atomic_load(&call->state);
        call->listener = listener;
        call->answered = false;
        if (call->notification.id == 0 || state == CALL_FREE)
            continue;
        if (state == CALL_HANDED_ON && (call->task == CALL_OPEN_CHIP || call->task == CALL_COMMAND))
            call_fail(call, ENODEV);
        else
            answer(call);
    }
}

/* What the process does. It has none of the broker's files but both of these. */
static _Noreturn void stand_by(const struct notify *notify, int ends) {
    static struct call call;
    char byte;
    sigset_t all;
    sigfillset(&all);
    sigprocmask(SIG_SETMASK, &all, NULL);
    setsid();
    int listener = fcntl(notify->listener, F_DUPFD, FIRST_UNUSED), pipe = fcntl(ends, F_DUPFD, FIRST_UNUSED);
    if (dup2(listener, LISTENER) < 0 || dup2(pipe, BROKER_ENDS) < 0)
        _exit(EXIT_FAILURE);
    syscall(SYS_close_range, FIRST_UNUSED, ~0u, 0);
    while (read(BROKER_ENDS, &byte, 1) < 0 && errno == EINTR)
        continue;
    answer_left_over(notify->calls, LISTENER);
    for (;;) {
        if (call_receive(&call, LISTENER))
            answer(&call);
        else if (errno == ENOENT && !call_has_callers(LISTENER))
            _exit(EXIT_SUCCESS);
    }
}

/* The broker's end of the pipe is closed by its end alone, which the process reads as the pipe's end. */
bool standby_start(struct notify *notify) {
    int ends[2];
    if (pipe2(ends, O_CLOEXEC))
        return false;
    pid_t process = fork();
    if (process == 0)
        stand_by(notify, ends[0]);
    int error = errno;
    close(ends[0]);
    if (process < 0)
        close(ends[1]);
    notify->standby = process;
    errno = error;
    return process > 0;
}
