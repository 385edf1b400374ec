#include "signals.h"

#include <errno.h>
#include <signal.h>
#include <string.h>
#include <sys/signalfd.h>
#include <sys/wait.h>
#include <time.h>
#include <unistd.h>

#include "report.h"

/* How often the end of a command is looked for that was sent SIGTERM, each after PAUSE nanoseconds: for 5 seconds. */
#define LOOKS 500
#define PAUSE (10 * 1000 * 1000)

/* Blocks the signals that are not ignored. False, with errno, where that fails. */
static bool block_signals(sigset_t *blocked) {
    static const int taken[] = {SIGCHLD, SIGINT, SIGTERM, SIGHUP, SIGQUIT};
    sigemptyset(blocked);
    for (size_t i = 0; i < sizeof taken / sizeof *taken; i++) {
        struct sigaction now;
        if (sigaction(taken[i], NULL, &now) == 0 && (now.sa_handler != SIG_IGN || taken[i] == SIGCHLD))
            sigaddset(blocked, taken[i]);
    }
    return signal(SIGPIPE, SIG_IGN) != SIG_ERR && signal(SIGCHLD, SIG_DFL) != SIG_ERR &&
           sigprocmask(SIG_BLOCK, blocked, NULL) == 0;
}

bool signals_open(struct signals *signals) {
    sigset_t blocked;
    memset(signals, 0, sizeof *signals);
    signals->number = -1;
    if (block_signals(&blocked))
        signals->number = signalfd(-1, &blocked, SFD_CLOEXEC | SFD_NONBLOCK);
    if (signals->number < 0)
        report("signals cannot be received: %s", strerror(errno));
    return signals->number >= 0;
}

void signals_close(struct signals *signals) {
    if (signals->number >= 0)
        close(signals->number);
    signals->number = -1;
}

bool signals_are_over(const struct signals *signals) {
    return signals->command == 0 || (signals->ended && !signals->left);
}

/* Takes the ends of children. */
static void reap(struct signals *signals) {
    int status;
    bool runs = signals->command > 0 && !signals->ended;
    if (runs && waitpid(signals->command, &status, WNOHANG) == signals->command) {
        signals->ended = true;
        signals->status = status;
    }
    signals->left = descendants_are_left(&signals->descendants, signals->command);
}

/* Hands a signal on. What a terminal sends reaches the command as well, but not what it has left. */
static void hand_on(const struct signals *signals, const struct signalfd_siginfo *signal) {
    if (signals->ended)
        descendants_signal(&signals->descendants, (int)signal->ssi_signo);
    else if (signals->command > 0 && signal->ssi_code != SI_KERNEL)
        kill(signals->command, (int)signal->ssi_signo);
}

void signals_receive(struct signals *signals) {
    struct signalfd_siginfo signal;
    while (read(signals->number, &signal, sizeof signal) == (ssize_t)sizeof signal) {
        /* (a signal with a lower number is shown before SIGCHLD, however late it came: to a command that has ended it
         * would be lost) */
        reap(signals);
        if (signal.ssi_signo == SIGCHLD)
            continue;
        signals->received++;
        signals->last = (int)signal.ssi_signo;
        hand_on(signals, &signal);
    }
}

/* Sends a signal to the command, and to what was left. */
static void send_all(const struct signals *signals, int number) {
    descendants_signal(&signals->descendants, number);
    if (!signals->descendants.adopted && !signals->ended)
        kill(signals->command, number);
}

void signals_end_command(struct signals *signals) {
    const struct timespec pause = {0, PAUSE};
    /* (a program of another user, or one that the kernel holds, does not end by SIGKILL either) */
    for (int look = 0; look < 2 * LOOKS && !signals_are_over(signals); look++) {
        if (look % LOOKS == 0)
            send_all(signals, look == 0 ? SIGTERM : SIGKILL);
        nanosleep(&pause, NULL);
        reap(signals);
    }
}
