#include "ask.h"

#include <errno.h>
#include <fcntl.h>
#include <pthread.h>
#include <signal.h>
#include <stdint.h>
#include <stdlib.h>
#include <string.h>
#include <sys/socket.h>
#include <sys/stat.h>
#include <sys/syscall.h>
#include <sys/un.h>
#include <unistd.h>

#include "../packet.h"
#include "lock.h"
#include "process.h"

/* The connection's number is at least this, out of the way of numbers that programs count on. */
#define LEAST_NUMBER 700

/* The broker ends connections that are of little use where it has too many. A question that it had not read by then is
 * asked again, so often at most. */
#define UNREAD (-1)
#define MOST_TURNS 4

/* System calls are made directly here: none of them may be a point at which a thread is cancelled, or end in a function
 * that this library takes over. */

/* The socket that was connected, so that it is known again where the program has closed its number and opened another
 * file by it. Used by whoever holds the lock of the process. In a child that has memory of its own it is the parent's
 * until the child asks. */
static struct {
    int number;
    dev_t device;
    ino_t ino;
} connection = {.number = -1};

/* One question, and where its answer goes. */
struct exchange {
    const struct question *question;
    const void *sent;
    struct packet packet;
    bool cloexec;
};

/* The broker's folder: a copy, as programs write over their environment. */
static char home[sizeof((struct sockaddr_un *)0)->sun_path - sizeof "/" WIRE_SOCKET];
static bool has_home, has_looked;

/* Whoever looks at once with another one writes the same bytes. */
static void find_home(void) {
    const char *found = getenv(WIRE_VARIABLE);
    if (found && *found == '/' && strlen(found) < sizeof home) {
        strcpy(home, found);
        __atomic_store_n(&has_home, true, __ATOMIC_RELAXED);
    }
    __atomic_store_n(&has_looked, true, __ATOMIC_RELEASE);
}

const char *ask_home(void) {
    if (!__atomic_load_n(&has_looked, __ATOMIC_ACQUIRE))
        find_home();
    return __atomic_load_n(&has_home, __ATOMIC_RELAXED) ? home : NULL;
}

static bool is_connection(void) {
    struct stat status;
    return connection.number >= 0 && syscall(SYS_newfstatat, connection.number, "", &status, AT_EMPTY_PATH) == 0 &&
           status.st_ino == connection.ino && status.st_dev == connection.device;
}

static void lose_connection(void) {
    if (is_connection())
        syscall(SYS_close, connection.number);
    connection.number = -1;
}

/* Makes this process the owner, and closes its copy of its parent's connection. */
static void become_owner(struct process *process) {
    if (__atomic_load_n(&process->owner, __ATOMIC_RELAXED) != 0)
        return;
    lose_connection();
    __atomic_store_n(&process->owner, getpid(), __ATOMIC_RELEASE);
}

/* (no lock: a child that fork has made has one thread, and its lock is free) */
static void in_child(void) {
    struct process *process = process_own();
    int kept = errno;
    if (process)
        become_owner(process);
    errno = kept;
}

__attribute__((constructor)) static void at_start(void) {
    if (!ask_home())
        return;
    in_child();
    pthread_atfork(NULL, NULL, in_child);
}

/* Moves a file to a high number, where there is one. */
static int move_high(int file) {
    int high = (int)syscall(SYS_fcntl, file, F_DUPFD_CLOEXEC, LEAST_NUMBER);
    if (high < 0)
        return file;
    syscall(SYS_close, file);
    return high;
}

/* Connects: a new file, or -1; `*gone` where nobody listens. */
static int connect_socket(bool *gone) {
    struct sockaddr_un address = {.sun_family = AF_UNIX};
    size_t length = strlen(home);
    memcpy(address.sun_path, home, length);
    memcpy(address.sun_path + length, "/" WIRE_SOCKET, sizeof "/" WIRE_SOCKET);
    int file = (int)syscall(SYS_socket, AF_UNIX, SOCK_SEQPACKET | SOCK_CLOEXEC, 0);
    if (file < 0)
        return -1;
    if (syscall(SYS_connect, file, &address, sizeof address)) {
        *gone = errno == ENOENT || errno == ECONNREFUSED;
        syscall(SYS_close, file);
        return -1;
    }
    return file;
}

/* Sees to it that there is a connection. */
static bool is_connected(struct process *process) {
    struct stat status;
    if (is_connection())
        return true;
    connection.number = -1;
    int file = process->broker_gone ? -1 : connect_socket(&process->broker_gone);
    if (file < 0)
        return false;
    file = move_high(file);
    if (syscall(SYS_newfstatat, file, "", &status, AT_EMPTY_PATH)) {
        syscall(SYS_close, file);
        return false;
    }
    connection.device = status.st_dev;
    connection.ino = status.st_ino;
    connection.number = file;
    return true;
}

/* The error's number: EFAULT, or ENODEV where the connection is of no more use; else 0. */
static int send_question(int socket, const struct exchange *exchange) {
    size_t length = exchange->question->length;
    struct iovec parts[] = {{(void *)exchange->question, sizeof *exchange->question}, {(void *)exchange->sent, length}};
    struct msghdr message = {.msg_iov = parts, .msg_iovlen = length > 0 ? 2 : 1};
    if (syscall(SYS_sendmsg, socket, &message, MSG_NOSIGNAL) >= 0)
        return 0;
    return errno == EFAULT ? EFAULT : errno == EPIPE || errno == ECONNRESET ? UNREAD : ENODEV;
}

/* The same of the answer; EMFILE where a file came for which this process has no number left. */
static int receive_answer(int socket, struct exchange *exchange) {
    struct packet *packet = &exchange->packet;
    long length = packet_receive(socket, packet, exchange->cloexec);
    if (length < 0 && errno == EFAULT)
        return EFAULT;
    if (length < 0 && errno == ECONNRESET)
        return UNREAD;
    return length <= 0 ? ENODEV : packet->is_cut ? EMFILE : 0;
}

static int ask_over(int socket, struct exchange *exchange) {
    int error = send_question(socket, exchange);
    return error ? error : receive_answer(socket, exchange);
}

static int ask_as(struct process *process, struct exchange *exchange) {
    int error = UNREAD;
    lock_take(&process->lock);
    become_owner(process);
    for (int turn = 0; turn < MOST_TURNS && error == UNREAD && is_connected(process); turn++) {
        error = ask_over(connection.number, exchange);
        if (error == ENODEV || error == UNREAD)
            lose_connection();
    }
    lock_release(&process->lock);
    return error == UNREAD ? ENODEV : error;
}

/* Asks over a connection that is made for this alone. */
static int ask_once(struct exchange *exchange) {
    bool gone = false;
    int socket = connect_socket(&gone);
    if (socket < 0)
        return ENODEV;
    int error = ask_over(socket, exchange);
    syscall(SYS_close, socket);
    return error == UNREAD ? ENODEV : error;
}

int ask(const struct question *question, const void *sent, struct answer *answer, void *got, size_t room, int *file,
    bool cloexec) {
    const uint64_t all = UINT64_MAX; /* (those too that the C library keeps for itself) */
    uint64_t before;
    struct exchange exchange = {question, sent, {answer, got, room, -1, false}, cloexec};
    int kept = errno, error = ENODEV;
    if (!ask_home())
        return ENODEV;
    if (syscall(SYS_rt_sigprocmask, SIG_SETMASK, &all, &before, sizeof all) == 0) {
        struct process *process = process_own();
        error = process ? ask_as(process, &exchange) : ask_once(&exchange);
        syscall(SYS_rt_sigprocmask, SIG_SETMASK, &before, NULL, sizeof before);
    }
    if (file)
        *file = exchange.packet.file;
    else if (exchange.packet.file >= 0)
        syscall(SYS_close, exchange.packet.file);
    errno = kept;
    return error;
}
