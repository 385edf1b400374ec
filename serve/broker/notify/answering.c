/* The calls that receivers handed on, answered by the broker's loop: each becomes the question that the library would
 * have asked, or concerns a file that only the loop knows.
 *
 * The loop asks no file system about a program's file (AT_STATX_DONT_SYNC): it may be gpio-sim's, whose requests the
 * loop itself answers. */
#include <errno.h>
#include <fcntl.h>
#include <stdio.h>
#include <string.h>
#include <sys/syscall.h>
#include <sys/uio.h>
#include <unistd.h>

#include "../../library/hardware.h"
#include "../questions.h"
#include "../report.h"
#include "../turn.h"
#include "flow.h"
#include "named.h"
#include "notify.h"

/* Room for the path of a process's file in /proc. */
#define LINK_SPACE 64

/* Asks a question in the place of the program that calls: its answer is the call's. False where the served program has
 * ended. */
static bool ask_for(struct broker *broker, struct call *call, const struct question *question) {
    static struct asker asker;
    static pid_t asking;
    pid_t thread = (pid_t)call->notification.pid;
    /* (a program's name stays what it was at its last opening, as that of a connection does) */
    if (broker->record.transcript.file && (thread != asking || question->op == WIRE_OPEN)) {
        asker = asker_of_thread(thread);
        asking = thread;
    }
    struct client client = {.call = call, .asker = asker};
    broker->packet.question = *question;
    return turn_close_ended(broker) && questions_answer(broker, &client);
}

/* The broker's file that one of the program's open files is, or NULL. */
static struct file *file_of(struct broker *broker, const struct call *call, int file) {
    uint64_t ino = call_pipe_of(call, file);
    return ino ? files_find(&broker->files, ino) : NULL;
}

/* Refuses a command on a chip of this machine itself, or on a request of its lines: no program that is run here reaches
 * them. */
static void refuse_hardware(struct call *call, uint32_t command) {
    static bool said;
    char path[LINK_SPACE], text[LINK_SPACE];
    struct stat status;
    int number = (int)call_argument(call, 0);
    snprintf(path, sizeof path, "/proc/%u/fd/%d", call->notification.pid, number);
    bool is_chip = fstatat(AT_FDCWD, path, &status, AT_STATX_DONT_SYNC) == 0 && S_ISCHR(status.st_mode) &&
                   hardware_chip(status.st_rdev) >= 0;
    bool is_request = call_file_text(call, number, text, sizeof text) &&
                      strncmp(text, "anon_inode:", strlen("anon_inode:")) == 0 && strstr(text, "gpio");
    if (!is_chip && !is_request)
        return;
    if (!said)
        report("refused command 0x%x on file %d of process %u, a GPIO device of this machine itself", command, number,
            call->notification.pid);
    said = true;
    call_fail(call, EPERM);
}

static bool open_chip(struct broker *broker, struct call *call) {
    const struct question question = {.op = WIRE_OPEN, .command = call->chip};
    return ask_for(broker, call, &question);
}

static bool command(struct broker *broker, struct call *call) {
    uint32_t number = (uint32_t)call_argument(call, 1);
    const struct file *file = file_of(broker, call, (int)call_argument(call, 0));
    if (!file) {
        refuse_hardware(call, number);
        return true;
    }
    struct question question = {
        .op = WIRE_IOCTL, .command = number, .ino = file->ino, .length = (uint32_t)call->length};
    /* (without its bytes a command is EFAULT, unless the file refuses it before) */
    if (files_is_gone(file) || !call->is_read)
        question.length = 0;
    memcpy(broker->packet.data, call->bytes, question.length);
    return !call_is_waiting(call) || ask_for(broker, call, &question);
}

/* Reads for a program that has room for more than the chip's driver would fill. */
static void read_whole_items(struct broker *broker, struct call *call, struct file *file, size_t size) {
    static unsigned char bytes[QUESTIONS_READ_MOST];
    uint32_t count = 0;
    if (flow_read(broker, file, size < sizeof bytes ? size : sizeof bytes, bytes, &count) != 0)
        return; /* nothing is there: the kernel waits for it, or says so */
    if (call_write(call, call_argument(call, 1), bytes, count))
        call_return(call, count);
    else
        call_fail(call, EFAULT);
}

/* Refuses a read over several parts whose first one is too short for an item. */
static void refuse_short_part(struct call *call, size_t item) {
    struct iovec first;
    bool is_read = call_argument(call, 2) > 0 &&
                   call_read(call, call_argument(call, 1), &first, sizeof first) == (ssize_t)sizeof first;
    if (is_read && first.iov_len < item)
        call_fail(call, EINVAL);
}

/* Refuses reads that the kernel wouldn't refuse of a pipe, and leaves the others to it. */
static void read_exactly(struct broker *broker, struct call *call) {
    struct file *file = file_of(broker, call, (int)call_argument(call, 0));
    size_t size = call_argument(call, 2);
    if (!file)
        return;
    if (files_is_gone(file))
        call_fail(call, ENODEV);
    else if (file->kind == FILE_HANDLE1)
        call_fail(call, EINVAL);
    else if (call->notification.data.nr == SYS_readv)
        refuse_short_part(call, flow_item(file));
    else if (flow_filled(file, size) == 0)
        call_fail(call, EINVAL);
    else if (flow_filled(file, size) != size && call_is_waiting(call))
        read_whole_items(broker, call, file, size);
}

/* Answers for the status of an open file that is a chip's. */
static void show_status(struct broker *broker, struct call *call) {
    int number = (int)call_argument(call, 0);
    const struct file *file = file_of(broker, call, number);
    char path[LINK_SPACE];
    struct stat status;
    struct statx extended;
    if (!file || file->kind != FILE_CHIP)
        return;
    snprintf(path, sizeof path, "/proc/%u/fd/%d", call->notification.pid, number);
    if (call->task == CALL_STATUS && fstatat(AT_FDCWD, path, &status, AT_STATX_DONT_SYNC) == 0) {
        named_show_chip(&status, file->chip);
        call_return_bytes(call, call->result, &status, sizeof status);
    } else if (call->task == CALL_STATUS_EXTENDED &&
               statx(AT_FDCWD, path, AT_STATX_DONT_SYNC, STATX_BASIC_STATS, &extended) == 0) {
        named_show_chip_extended(&extended, file->chip);
        call_return_bytes(call, call->result, &extended, sizeof extended);
    }
}

/* Answers a call, or leaves it to the kernel. False where the served program has ended. */
static bool answer(struct broker *broker, struct call *call) {
    switch (call->task) {
    case CALL_OPEN_CHIP:
        return open_chip(broker, call);
    case CALL_COMMAND:
        return command(broker, call);
    case CALL_READ:
        read_exactly(broker, call);
        return true;
    default:
        show_status(broker, call);
        return true;
    }
}

void notify_prepare(struct notify *notify, const struct home *home, bool exact) {
    notify->exact = exact;
    notify->home = home->path;
    notify->listener = -1;
    pthread_mutex_init(&notify->lock, NULL);
    pthread_cond_init(&notify->tree_was_shown, NULL);
    pthread_cond_init(&notify->call_was_taken, NULL);
}

/* Shows gpio-sim's file system for a receiver, which goes on with its call then. */
static void show_tree(struct broker *broker, struct call *call) {
    struct notify *notify = broker->notify;
    int tree = show_begin(broker, call->need) ? CALL_TREE_SHOWN : CALL_TREE_HIDDEN;
    pthread_mutex_lock(&notify->lock);
    call->tree = tree;
    /* (where it was only looked for, its use is still to be reported) */
    if (tree == CALL_TREE_SHOWN || call->need == WIRE_TREE_USES)
        atomic_store(&notify->tree, tree);
    pthread_cond_broadcast(&notify->tree_was_shown);
    pthread_mutex_unlock(&notify->lock);
}

pid_t notify_caller(const struct broker *broker, pid_t process) {
    const struct notify *notify = broker->notify;
    for (size_t i = 0; notify && notify->calls && i < NOTIFY_CALLS; i++) {
        const struct call *call = &notify->calls->list[i];
        if (atomic_load(&call->thread) == process && atomic_load(&call->state) == CALL_RECEIVED)
            return (pid_t)call->notification.pid;
    }
    return process;
}

void notify_end(struct broker *broker) {
    struct notify *notify = broker->notify;
    if (!notify || !notify->calls)
        return;
    pthread_mutex_lock(&notify->lock);
    atomic_store(&notify->is_over, true);
    pthread_cond_broadcast(&notify->tree_was_shown);
    pthread_mutex_unlock(&notify->lock);
    for (size_t i = 0; i < NOTIFY_CALLS; i++)
        if (atomic_load(&notify->calls->list[i].state) == CALL_HANDED_ON)
            call_fail(&notify->calls->list[i], ENODEV);
}

bool notify_take(struct broker *broker) {
    unsigned char place;
    if (read(broker->notify->handed.number, &place, 1) != 1 || place >= NOTIFY_CALLS)
        return true;
    struct call *call = &broker->notify->calls->list[place];
    if (call->task == CALL_TREE) {
        show_tree(broker, call);
        return !broker->machine.ended;
    }
    bool alive = answer(broker, call);
    if (!alive)
        call_fail(call, ENODEV);
    call_continue(call);
    atomic_store(&call->thread, 0);
    atomic_store(&call->state, CALL_FREE);
    return alive;
}
