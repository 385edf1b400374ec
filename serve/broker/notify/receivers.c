/* Threads that take calls from the kernel. What doesn't concern the broker goes on to the kernel at once.
 *
 * One thread receives, since the kernel wakes all that do for each call. A call of which it looks up the name may wait
 * for a file system that one of the programs serves. So another thread watches it, and starts one more where it has had
 * the same call for some milliseconds. Where two receive by then, one of them ends. */
#include <errno.h>
#include <fcntl.h>
#include <pthread.h>
#include <signal.h>
#include <string.h>
#include <sys/ioctl.h>
#include <sys/syscall.h>
#include <time.h>
#include <unistd.h>

#include "../../uapi.h"
#include "named.h"
#include "notify.h"

/* Since Linux 6.6: the kernel wakes a receiver on the processor of the program that calls, which is about to wait. */
#ifndef SECCOMP_IOCTL_NOTIF_SET_FLAGS
#define SECCOMP_IOCTL_NOTIF_SET_FLAGS SECCOMP_IOW(4, __u64)
#define SECCOMP_USER_NOTIF_FD_SYNC_WAKE_UP (1UL << 0)
#endif

/* Threads at a time. */
#define MOST_RECEIVERS 32
/* The stack of one: it keeps some paths. */
#define STACK_BYTES (256 * 1024)
/* How long a thread waits for a place in the list when all are taken. */
#define PAUSE_NANOSECONDS 200000
/* How often receivers are looked at, and after so many looks at which nothing was called they are no longer, until
 * something is. */
#define LOOK_NANOSECONDS 2000000
#define QUIET_LOOKS 50

static void *receive_calls(void *argument);

/* Starts a thread, in which no signal is taken. An error's number, or 0. */
static int start_thread(struct notify *notify, void *(*run)(void *)) {
    pthread_t thread;
    pthread_attr_t attributes;
    sigset_t all, before;
    sigfillset(&all);
    pthread_sigmask(SIG_BLOCK, &all, &before);
    int error = pthread_attr_init(&attributes);
    if (error == 0) {
        pthread_attr_setdetachstate(&attributes, PTHREAD_CREATE_DETACHED);
        pthread_attr_setstacksize(&attributes, STACK_BYTES);
        error = pthread_create(&thread, &attributes, run, notify);
        pthread_attr_destroy(&attributes);
    }
    pthread_sigmask(SIG_SETMASK, &before, NULL);
    return error;
}

/* Starts one more receiver, where there may be one. An error's number, or 0. */
static int start_receiver(struct notify *notify) {
    int error = EAGAIN;
    if (atomic_fetch_add(&notify->receivers, 1) < MOST_RECEIVERS)
        error = start_thread(notify, receive_calls);
    if (error)
        atomic_fetch_sub(&notify->receivers, 1);
    return error;
}

/* Wakes the thread that watches, where it sleeps until something is called. */
static void wake_watcher(struct notify *notify) {
    if (!atomic_load(&notify->watcher_sleeps))
        return;
    pthread_mutex_lock(&notify->lock);
    pthread_cond_signal(&notify->call_was_taken);
    pthread_mutex_unlock(&notify->lock);
}

/* Sleeps until another call is taken than so many. */
static void sleep_until_taken(struct notify *notify, unsigned taken) {
    pthread_mutex_lock(&notify->lock);
    atomic_store(&notify->watcher_sleeps, true);
    while (atomic_load(&notify->taken) == taken && !atomic_load(&notify->has_no_callers))
        pthread_cond_wait(&notify->call_was_taken, &notify->lock);
    atomic_store(&notify->watcher_sleeps, false);
    pthread_mutex_unlock(&notify->lock);
}

/* Watches that somebody receives, as long as there are programs that could call. */
static void *watch_receivers(void *argument) {
    const struct timespec pause = {0, LOOK_NANOSECONDS};
    struct notify *notify = argument;
    unsigned quiet = 0, seen = 0;
    while (!atomic_load(&notify->has_no_callers)) {
        unsigned taken = atomic_load(&notify->taken);
        bool is_received = atomic_load(&notify->idle) > 0;
        quiet = taken == seen ? quiet + 1 : 0;
        if (quiet > 0 && !is_received)
            start_receiver(notify);
        if (quiet >= QUIET_LOOKS && is_received)
            sleep_until_taken(notify, taken);
        seen = taken;
        nanosleep(&pause, NULL);
    }
    return NULL;
}

/* Takes a free place in the list for this thread. Where there is none, as many calls as there are places wait for the
 * loop. */
static struct call *take_place(struct notify *notify, pid_t thread) {
    const struct timespec pause = {0, PAUSE_NANOSECONDS};
    for (;;) {
        for (size_t i = 0; i < NOTIFY_CALLS; i++) {
            int expected = CALL_FREE;
            struct call *call = &notify->calls->list[i];
            if (atomic_load(&call->state) == CALL_FREE &&
                atomic_compare_exchange_strong(&call->state, &expected, CALL_RECEIVED)) {
                atomic_store(&call->thread, thread);
                return call;
            }
        }
        nanosleep(&pause, NULL);
    }
}

/* Whether an open file may be one of the broker's, all of which are pipes. */
static bool may_be_ours(const struct call *call, int file) {
    return call_pipe_of(call, file) != 0;
}

/* Whether a call asks for the status of an open file: it has no name, and says so. */
static bool is_of_open_file(const struct named *named) {
    enum operation_kind kind = named->operation->kind;
    return *named->name == 0 && named->flags & AT_EMPTY_PATH &&
           (kind == OPERATION_STATUS || kind == OPERATION_STATUS_EXTENDED);
}

/* Has the loop show gpio-sim's file system, and waits until that is done. Whether it is shown. */
static bool show_tree(struct notify *notify, struct call *call, enum wire_tree need) {
    unsigned char place = (unsigned char)(call - notify->calls->list);
    if (atomic_load(&notify->tree) != CALL_TREE_UNKNOWN)
        return atomic_load(&notify->tree) == CALL_TREE_SHOWN;
    call->task = CALL_TREE;
    call->need = need;
    call->tree = CALL_TREE_UNKNOWN;
    pthread_mutex_lock(&notify->lock);
    bool is_asked = !notify->is_over && write(notify->handed_to, &place, 1) == 1;
    while (is_asked && call->tree == CALL_TREE_UNKNOWN && !notify->is_over)
        pthread_cond_wait(&notify->tree_was_shown, &notify->lock);
    pthread_mutex_unlock(&notify->lock);
    return call->tree == CALL_TREE_SHOWN;
}

/* Looks at a call that takes a name, and answers it or lets it pass, unless it opens a chip or is about an open file.
 * Whether the loop has to answer it. */
static bool look_at_name(struct notify *notify, struct call *call) {
    struct named named;
    enum wire_tree need;
    if (!named_read(&named, call, notify->home, atomic_load(&notify->tree) == CALL_TREE_SHOWN))
        return false;
    if (named_needs_tree(&named, &need) && call_is_waiting(call) && show_tree(notify, call, need))
        named_look_in_tree(&named);
    if (notify->exact && is_of_open_file(&named)) {
        call->task = named.operation->kind == OPERATION_STATUS ? CALL_STATUS : CALL_STATUS_EXTENDED;
        call->result = call_argument(call, named.operation->detail);
        return may_be_ours(call, named.from.folder);
    }
    if (!named_is_ours(&named) || !call_is_waiting(call))
        return false;
    if (!named_opens_chip(&named)) {
        named_answer(&named, call);
        return false;
    }
    call->task = CALL_OPEN_CHIP;
    call->chip = (unsigned)named.found.chip;
    call->flags = named.flags;
    return true;
}

/* Reads the structure of a command. The loop must not: the memory may be a mapped file of gpio-sim's file system, whose
 * requests it answers. */
static void read_structure(struct call *call) {
    call->structure = call_argument(call, 2);
    call->length = uapi_length((uint32_t)call_argument(call, 1));
    call->is_read =
        call->length <= sizeof call->bytes &&
        (call->length == 0 || call_read(call, call->structure, call->bytes, call->length) == (ssize_t)call->length);
}

/* Whether the loop has to answer a call. */
static bool concerns_loop(struct notify *notify, struct call *call) {
    switch (call->notification.data.nr) {
    case SYS_ioctl:
        call->task = CALL_COMMAND;
        read_structure(call);
        return true;
    case SYS_read:
    case SYS_readv:
        call->task = CALL_READ;
        return may_be_ours(call, (int)call_argument(call, 0));
    case SYS_fstat:
        call->task = CALL_STATUS;
        call->result = call_argument(call, 1);
        return may_be_ours(call, (int)call_argument(call, 0));
    default:
        return look_at_name(notify, call);
    }
}

/* Hands a call on to the loop. False where that fails: then it is the caller's as before. Once the loop is over the
 * call fails here. */
static bool hand_on(struct notify *notify, struct call *call) {
    unsigned char place = (unsigned char)(call - notify->calls->list);
    atomic_store(&call->state, CALL_HANDED_ON);
    if (!atomic_load(&notify->is_over) && write(notify->handed_to, &place, 1) == 1)
        return true;
    if (atomic_load(&notify->is_over))
        call_fail(call, ENODEV);
    atomic_store(&call->state, CALL_RECEIVED);
    return false;
}

/* Gives a place in the list back. */
static void leave_place(struct call *call) {
    atomic_store(&call->thread, 0);
    atomic_store(&call->state, CALL_FREE);
}

/* Waits for a call. False where there is no program any more that could call. */
static bool receive(struct notify *notify, struct call *call) {
    for (;;) {
        atomic_fetch_add(&notify->idle, 1);
        bool received = call_receive(call, notify->listener);
        int error = errno;
        atomic_fetch_sub(&notify->idle, 1);
        if (received)
            atomic_fetch_add(&notify->taken, 1);
        else if (error == ENOENT && !call_has_callers(notify->listener))
            atomic_store(&notify->has_no_callers, true);
        else
            continue;
        wake_watcher(notify);
        return received;
    }
}

/* Receives calls until there is no program that could call, or somebody else receives. */
static void *receive_calls(void *argument) {
    struct notify *notify = argument;
    const pid_t thread = gettid();
    struct call *call = take_place(notify, thread);
    do {
        if (!receive(notify, call))
            break;
        if (concerns_loop(notify, call) && hand_on(notify, call))
            call = take_place(notify, thread);
        else
            call_continue(call);
    } while (atomic_load(&notify->idle) == 0);
    leave_place(call);
    atomic_fetch_sub(&notify->receivers, 1);
    return NULL;
}

bool notify_receive(struct notify *notify) {
    ioctl(notify->listener, SECCOMP_IOCTL_NOTIF_SET_FLAGS, SECCOMP_USER_NOTIF_FD_SYNC_WAKE_UP);
    int error = start_receiver(notify);
    if (error == 0)
        error = start_thread(notify, watch_receivers);
    errno = error;
    return error == 0;
}
