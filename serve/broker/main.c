/* gpioserve: runs a command that finds simulated GPIO chips in /dev. */
#include <errno.h>
#include <fcntl.h>
#include <limits.h>
#include <stdio.h>
#include <stdlib.h>
#include <string.h>
#include <sys/epoll.h>
#include <sys/stat.h>
#include <sys/wait.h>
#include <time.h>
#include <unistd.h>

#include "board.h"
#include "broker.h"
#include "command.h"
#include "loop.h"
#include "notify/notify.h"
#include "options.h"
#include "program.h"
#include "report.h"
#include "spare.h"
#include "turn.h"
#include "version.h"

#define LIBRARY "libgpioserve.so"
/* What divides the paths in LD_PRELOAD. */
#define DIVIDERS " :"
#define SERVED "gpioserved"
/* Words of the served program and its arguments. */
#define MOST_WORDS 16

/* The path of a file that is named from the folder of this program. False where it is too long. */
static bool beside(char path[PATH_MAX], const char *name) {
    char own[PATH_MAX];
    ssize_t length = readlink("/proc/self/exe", own, sizeof own - 1);
    if (length <= 0)
        return false;
    own[length] = 0;
    char *slash = strrchr(own, '/');
    if (!slash)
        return false;
    return snprintf(path, PATH_MAX, "%.*s/%s", (int)(slash - own), own, name) < PATH_MAX;
}

/* The words of the served program: the path or the words, divided by blanks, that are named, or the program beside this
 * one. `room` keeps their text. False, and reported, where there is none. */
static bool served_words(const char *named, char room[PATH_MAX], char *words[MOST_WORDS + 1]) {
    size_t count = 0;
    if (!named)
        named = getenv("GPIOSERVED");
    if (!named || !*named) {
        words[0] = room;
        words[1] = NULL;
        if (beside(room, SERVED) && access(room, X_OK) == 0)
            return true;
        report("there is no gpioserved beside gpioserve: in the repository call ./gpioserve at the top, which makes "
               "one, or "
               "name one by --served");
        return false;
    }
    if (snprintf(room, PATH_MAX, "%s", named) >= PATH_MAX) {
        report("the served program's path is too long");
        return false;
    }
    words[0] = room;
    words[1] = NULL;
    if (access(room, X_OK) == 0)
        return true;
    for (char *word = strtok(room, " "); word && count < MOST_WORDS; word = strtok(NULL, " "))
        words[count++] = word;
    words[count] = NULL;
    return count > 0;
}

/* The path of the library that is preloaded. A path with a blank or a colon would be taken for two: then it is a link
 * in the broker's folder. False, and reported, where there is none. */
static bool find_library(const struct broker *broker, char path[PATH_MAX]) {
    char real[PATH_MAX];
    if (!beside(path, LIBRARY) || access(path, R_OK)) {
        report("%s isn't beside gpioserve: run make in serve/", LIBRARY);
        return false;
    }
    if (!strpbrk(path, DIVIDERS))
        return true;
    snprintf(real, sizeof real, "%s", path);
    if (snprintf(path, PATH_MAX, "%s/%s", broker->home.path, LIBRARY) < PATH_MAX && symlink(real, path) == 0)
        return true;
    report("%s can't be linked to in %s: %s", real, broker->home.path, strerror(errno));
    return false;
}

/* The same, where the path can stand in LD_PRELOAD: of two paths with a blank or a colon none can. */
static bool find_preload(const struct broker *broker, char path[PATH_MAX]) {
    if (!find_library(broker, path))
        return false;
    if (!strpbrk(path, DIVIDERS))
        return true;
    report("the library can't be preloaded, since its folder and %s both have a blank or a colon: set TMPDIR to a "
           "folder without, as TMPDIR=/tmp, or name one by --folder",
        broker->home.path);
    return false;
}

/* Whether a signal has come already that ends programs: then nothing is begun, which is reported. */
static bool is_interrupted(const struct broker *broker) {
    if (broker->signals.received > 0)
        report("a signal came before the command began");
    return broker->signals.received > 0;
}

/* Starts the command, or prints the variables for those who start programs themselves, and answers questions. */
static int serve(struct broker *broker, const struct options *options, const char *library) {
    struct command_view view = {broker->notify, library, broker->home.path, !broker->show.missing, options->sys};
    broker->tree.has_system = options->sys;
    if (options->sys && !show_begin(broker, WIRE_TREE_USES))
        return STATUS_OWN;
    if (options->environment)
        return command_print_variables(&view) ? loop_run(broker) : STATUS_OWN;
    if (options->daemons && !descendants_adopt(&broker->signals.descendants))
        return STATUS_OWN;
    int status = command_start(&broker->signals.command, options->command, &view);
    if (broker->notify)
        descendants_add_own(&broker->signals.descendants, broker->notify->standby);
    return status ? status : loop_run(broker);
}

/* Serves, once all is there that this needs. */
static int run_command(struct broker *broker, const struct options *options, const struct board *board) {
    char library[PATH_MAX];
    int status = STATUS_OWN;
    if (!board_hand_in(broker, board))
        return STATUS_OWN;
    if (clients_listen(&broker->clients, broker->home.path) && turn_tick(broker) &&
        (broker->notify || find_preload(broker, library)) && !is_interrupted(broker)) {
        waves_begin(&broker->waves, broker->now);
        show_prepare(broker, !options->environment);
        status = serve(broker, options, library);
    }
    clients_end(&broker->clients);
    show_end(broker);
    tree_free(&broker->tree);
    return status;
}

/* What a status of gpioserved means. */
static const char *meaning(int status) {
    switch (status) {
    case 4:
        return ", it could not read,";
    case 5:
        return ", it could not write,";
    case 6:
        return ", out of memory,";
    default:
        return "";
    }
}

/* Whether the input's end can be waited for; else it is reported that it can't. */
static bool can_await_input(void) {
    struct stat status;
    bool waits = fstat(STDIN_FILENO, &status) == 0 &&
                 (S_ISFIFO(status.st_mode) || S_ISSOCK(status.st_mode) || isatty(STDIN_FILENO));
    if (!waits)
        report("--env serves until its input ends: let that be a pipe, a socket or a terminal");
    return waits;
}

/* Says how the served program ended, where that was its own doing, and `rest`: before what. */
static void report_served(const struct machine *machine, int status, const char *rest) {
    if (machine->hung == PATIENCE_LIMIT)
        report("the served program hangs: it did not answer for %u seconds, and was ended %s", machine->patience->limit,
            rest);
    else if (machine->hung == PATIENCE_INTERRUPTED)
        report("the served program hangs: it did not answer when a signal came, and was ended %s", rest);
    else if (machine->garbled)
        report("what the served program wrote is no answer: is it gpioserved? It ended %s", rest);
    else if (machine->ended && WIFSIGNALED(status))
        report("the served program was ended by signal %d %s", WTERMSIG(status), rest);
    else if (machine->ended)
        report("the served program ended with status %d%s %s", WEXITSTATUS(status), meaning(WEXITSTATUS(status)), rest);
    else if (!WIFEXITED(status) || WEXITSTATUS(status) != 0)
        report("the served program did not end well: status %d", status);
}

static int run_broker(struct broker *broker, const struct options *options, const struct board *board) {
    char room[PATH_MAX], *words[MOST_WORDS + 1];
    if (!served_words(options->served, room, words) ||
        !machine_start(&broker->machine, words, &broker->record, &broker->patience))
        return STATUS_OWN;
    renewal_prepare(broker, words, board, options);
    int status = run_command(broker, options, board);
    if (broker->renewal.has_failed)
        return STATUS_SERVED_DIED;
    report_served(&broker->machine, machine_end(&broker->machine),
        status == STATUS_OWN   ? "before the command began"
        : options->environment ? "before the input"
                               : "before the command, which was ended with it");
    return status;
}

/* Prints the version: its status. */
static int print_version(const struct options *options) {
    char room[PATH_MAX], *words[MOST_WORDS + 1];
    version_print(served_words(options->served, room, words) ? words[0] : NULL);
    return fflush(stdout) == 0 ? 0 : STATUS_OWN;
}

/* Opens what the user named. This may wait for others, as for the writer of a pipe: no signal is blocked yet. */
static bool open_named(struct broker *broker, const struct options *options, struct board *board) {
    return board_read(board, options->board) &&
           record_open(&broker->record, options->transcript, options->answers, &broker->patience) &&
           output_open(&broker->calls.log, options->calls, &broker->patience) &&
           waves_open(&broker->waves, options->waves, options->manual ? 1 : 1000, &broker->patience);
}

/* Opens what the broker waits by. */
static bool open_own(struct broker *broker) {
    if (!signals_open(&broker->signals))
        return false;
    spare_take();
    broker->poller = epoll_create1(EPOLL_CLOEXEC);
    broker->ends = epoll_create1(EPOLL_CLOEXEC);
    if (broker->poller >= 0 && broker->ends >= 0)
        return true;
    report("nothing can be waited for: %s", strerror(errno));
    return false;
}

/* Takes the numbers of the standard streams that are closed: a file of ours that got one would be written to by
 * reports. The command finds them closed as they were. False where that can't be. */
static bool hold_streams(void) {
    for (int stream = STDIN_FILENO; stream <= STDERR_FILENO; stream++)
        if (fcntl(stream, F_GETFD) < 0 && open("/dev/null", O_RDWR | O_CLOEXEC) != stream)
            return false;
    return true;
}

/* Closes the files that the user named. The status to end with: that of the run, if all could be written. */
static int close_named(struct broker *broker, int status) {
    bool written = waves_close(&broker->waves, broker->now);
    written = record_close(&broker->record) && written && !broker->renewal.is_unwritten;
    written = output_close(&broker->calls.log) && written;
    if (written || status == STATUS_SERVED_DIED || status == STATUS_OWN)
        return status;
    report("the status is %d, since not all was written; that of the command was %d", STATUS_OWN, status);
    return STATUS_OWN;
}

/* Whether the kernel has to notify of the command's calls. Where that isn't what was asked for, it is reported why. */
static bool takes_notification(const struct options *options) {
    char path[PATH_MAX];
    if (options->way != WAY_EITHER || options->environment || options->sys)
        return options->way == WAY_NOTIFY;
    const struct obstacle *obstacle = program_find(options->command[0], path) ? program_obstacle(path) : NULL;
    if (!obstacle || obstacle->to_all)
        return false;
    report("%s %s: the kernel notifies of its calls (--way notify)", path, obstacle->what);
    return true;
}

int main(int count, char **arguments) {
    static struct notify notify;
    static struct broker broker = {.poller = -1, .ends = -1, .signals.number = -1};
    struct options options;
    struct board board;
    if (!hold_streams())
        return STATUS_OWN;
    switch (options_read(&options, count, arguments)) {
    case OPTIONS_HELP:
        return 0;
    case OPTIONS_VERSION:
        return print_version(&options);
    case OPTIONS_WRONG:
        return STATUS_OWN;
    case OPTIONS_RUN:
        break;
    }
    if (options.environment && !can_await_input())
        return STATUS_OWN;
    broker.manual = options.manual;
    broker.calls = options.plan;
    if (takes_notification(&options))
        broker.notify = &notify;
    notify_prepare(&notify, &broker.home, options.exact);
    broker.patience = (struct patience){&broker.signals, options.limit};
    int status = STATUS_OWN;
    if (open_named(&broker, &options, &board) && open_own(&broker) && home_make(&broker.home, options.folder)) {
        broker.home.lists_devices = broker.notify != NULL;
        status = run_broker(&broker, &options, &board);
    }
    board_free(&board);
    home_remove(&broker.home);
    files_free(&broker.files);
    observers_free(&broker.observers);
    status = close_named(&broker, status);
    close(broker.poller);
    close(broker.ends);
    signals_close(&broker.signals);
    return status;
}
