#include "process.h"

#include <errno.h>
#include <fcntl.h>
#include <signal.h>
#include <spawn.h>
#include <sys/wait.h>
#include <time.h>
#include <unistd.h>

extern char **environ;

bool process_pipes(int in[2], int out[2]) {
    if (pipe2(in, O_CLOEXEC))
        return false;
    if (pipe2(out, O_CLOEXEC) == 0)
        return true;
    int error = errno;
    close(in[0]);
    close(in[1]);
    errno = error;
    return false;
}

static int set_attributes(posix_spawnattr_t *attributes, bool alone) {
    sigset_t none, changed;
    short flags = POSIX_SPAWN_SETSIGMASK | POSIX_SPAWN_SETSIGDEF;
    sigemptyset(&none);
    sigemptyset(&changed);
    sigaddset(&changed, SIGPIPE);
    int error = posix_spawnattr_setsigmask(attributes, &none);
    if (error == 0)
        error = posix_spawnattr_setsigdefault(attributes, &changed);
    if (error == 0)
        error = posix_spawnattr_setflags(attributes, alone ? flags | POSIX_SPAWN_SETSID : flags);
    return error;
}

static int set_streams(posix_spawn_file_actions_t *actions, int in, int out) {
    int error = posix_spawn_file_actions_adddup2(actions, in, STDIN_FILENO);
    return error ? error : posix_spawn_file_actions_adddup2(actions, out, STDOUT_FILENO);
}

int process_start(pid_t *pid, char *const *words, int in, int out, char *const *environment) {
    posix_spawnattr_t attributes;
    posix_spawn_file_actions_t actions;
    int error = posix_spawnattr_init(&attributes);
    if (error)
        return error;
    error = posix_spawn_file_actions_init(&actions);
    if (error == 0) {
        error = set_attributes(&attributes, environment == NULL);
        if (error == 0 && !environment)
            error = set_streams(&actions, in, out);
        if (error == 0)
            error = posix_spawnp(pid, words[0], &actions, &attributes, words, environment ? environment : environ);
        posix_spawn_file_actions_destroy(&actions);
    }
    posix_spawnattr_destroy(&attributes);
    return error;
}

/* Pauses that are short, since a program whose input has ended is soon at its end; the others are of 5 ms. */
#define SHORT_PAUSES 25

int process_wait(pid_t pid, bool patient) {
    struct timespec pause = {0, 200 * 1000};
    int status = 0;
    for (int turn = 0; patient && turn < 1000; turn++) {
        if (turn == SHORT_PAUSES)
            pause.tv_nsec = 5 * 1000 * 1000;
        pid_t ended = waitpid(pid, &status, WNOHANG);
        if (ended == pid || (ended < 0 && errno != EINTR))
            return status;
        nanosleep(&pause, NULL);
    }
    kill(-pid, SIGKILL);
    while (waitpid(pid, &status, 0) < 0 && errno == EINTR)
        continue;
    return status;
}
