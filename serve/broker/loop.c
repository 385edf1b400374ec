#include "loop.h"

#include <errno.h>
#include <string.h>
#include <sys/epoll.h>
#include <sys/wait.h>

#include "clock.h"
#include "notify/notify.h"
#include "questions.h"
#include "report.h"
#include "turn.h"

/* What is taken at one look: all connections, and what else is waited for. */
#define MOST_SHOWN (CLIENTS_MOST + 64)
#define MOST_INPUT 4096

struct loop {
    struct broker *broker;
    struct watch signals, ends, input;
    bool input_ended;
    bool alive; /* the served program answers */
};

/* Passes over what comes as input, up to its end. */
static void take_input(struct loop *loop) {
    char bytes[MOST_INPUT];
    ssize_t got = read(loop->input.number, bytes, sizeof bytes);
    if (got == 0 || (got < 0 && errno != EINTR && errno != EAGAIN))
        loop->input_ended = true;
}

/* Takes a connection, where one was shown: after those that have ended, of which there may be as many as there can be.
 */
static void take_connection(struct broker *broker, const struct epoll_event *events, int count) {
    int shown = 0;
    while (shown < count && events[shown].data.ptr != &broker->clients.listener)
        shown++;
    if (shown == count)
        return;
    struct client *client = clients_accept(&broker->clients);
    if (client && !watch_by(broker->poller, &client->watch, EPOLLIN))
        clients_drop(&broker->clients, client);
}

/* Answers a question, once all files are closed that were so before it. Of a client that waits nothing is shown but
 * that it has gone. */
static bool take_question(struct broker *broker, struct client *client) {
    uint64_t begin = clock_monotonic();
    int got = client->wait.kind == WAIT_NOTHING ? clients_read(client, &broker->packet) : -1;
    if (got < 0)
        clients_drop(&broker->clients, client);
    if (got <= 0)
        return true;
    bool alive = turn_close_ended(broker) && questions_answer(broker, client);
    clients_charge(client, clock_monotonic() - begin);
    return alive;
}

/* Takes what was shown, except questions and new connections. */
static void take_event(struct loop *loop, const struct watch *watch) {
    switch (watch->kind) {
    case WATCH_SIGNALS:
        signals_receive(&loop->broker->signals);
        break;
    case WATCH_INPUT:
        take_input(loop);
        break;
    case WATCH_ENDS:
        loop->alive = turn_close_ended(loop->broker);
        break;
    case WATCH_SERVED:
        loop->alive = false;
        break;
    case WATCH_TREE:
        loop->alive = show_answer(loop->broker);
        break;
    case WATCH_CALLS:
        loop->alive = notify_take(loop->broker);
        break;
    case WATCH_LISTENER:
    case WATCH_CLIENT:
    case WATCH_FILE:
        break;
    }
}

/* The client that was shown, or NULL: it was no client, or its connection was ended since then. */
static struct client *client_of(const struct epoll_event *event) {
    const struct watch *watch = event->data.ptr;
    return watch->kind == WATCH_CLIENT && watch->number >= 0 ? watch->owner : NULL;
}

/* Takes a question of each client that was shown. Of the processes whose answers take long, only the one that was
 * answered longest ago is answered: whoever asks then waits for one such answer, however many were asked for. */
static void take_questions(struct loop *loop, const struct epoll_event *events, int count) {
    struct client *costly = NULL;
    for (int i = 0; i < count && loop->alive; i++) {
        struct client *client = client_of(&events[i]);
        if (client && !client->costly)
            loop->alive = take_question(loop->broker, client);
        else if (client && (!costly || client->served < costly->served))
            costly = client;
    }
    if (costly && costly->watch.number >= 0 && loop->alive)
        loop->alive = take_question(loop->broker, costly);
}

/* How long nothing has to be done: milliseconds, or -1. */
static int idle_time(struct broker *broker) {
    const int times[] = {turn_wait(broker), waits_time(broker), calls_time(broker)};
    int least = -1;
    for (size_t i = 0; i < sizeof times / sizeof *times; i++)
        if (times[i] >= 0 && (least < 0 || times[i] < least))
            least = times[i];
    return least;
}

/* One turn of the loop. */
static bool wait_once(struct loop *loop) {
    static struct epoll_event events[MOST_SHOWN];
    struct broker *broker = loop->broker;
    int count = epoll_wait(broker->poller, events, MOST_SHOWN, idle_time(broker));
    if (count < 0)
        return errno == EINTR;
    for (int i = 0; i < count && loop->alive; i++)
        take_event(loop, events[i].data.ptr);
    take_questions(loop, events, count);
    if (loop->alive)
        take_connection(broker, events, count);
    clients_bury(&broker->clients);
    if (loop->alive && turn_wait(broker) == 0)
        loop->alive = turn_tick(broker);
    loop->alive = loop->alive && waits_expire(broker) && calls_tick(broker) && renewal_look(broker);
    record_flush(&broker->record);
    output_flush(&broker->calls.log);
    return true;
}

static bool prepare(struct loop *loop) {
    struct broker *broker = loop->broker;
    loop->signals = (struct watch){WATCH_SIGNALS, broker->signals.number, NULL};
    broker->served = (struct watch){WATCH_SERVED, broker->machine.from, NULL};
    loop->ends = (struct watch){WATCH_ENDS, broker->ends, NULL};
    loop->input = (struct watch){WATCH_INPUT, STDIN_FILENO, NULL};
    return watch_by(broker->poller, &loop->signals, EPOLLIN) && watch_by(broker->poller, &broker->served, 0) &&
           watch_by(broker->poller, &loop->ends, EPOLLIN) &&
           watch_by(broker->poller, &broker->clients.listener, EPOLLIN) &&
           (broker->signals.command || watch_by(broker->poller, &loop->input, EPOLLIN)) &&
           (!broker->notify || watch_by(broker->poller, &broker->notify->handed, EPOLLIN));
}

/* Whether the command has ended, with what it has left; without one, whether the input has, or a signal came. */
static bool is_over(const struct loop *loop) {
    const struct signals *signals = &loop->broker->signals;
    return signals->command ? signals_are_over(signals) : loop->input_ended || signals->received > 0;
}

/* Ends a command that has nobody any more who answers. What it asks or waits for fails first, since a program that
 * waits for an answer receives no signal. */
static void end_command(struct broker *broker) {
    show_end(broker);
    clients_end(&broker->clients);
    notify_end(broker);
    files_free(&broker->files);
    signals_end_command(&broker->signals);
}

/* The status of a loop that is over. */
static int status_of(const struct signals *signals) {
    if (signals->command == 0)
        return signals->received > 0 ? STATUS_SIGNAL + signals->last : 0;
    return WIFEXITED(signals->status) ? WEXITSTATUS(signals->status) : STATUS_SIGNAL + WTERMSIG(signals->status);
}

int loop_run(struct broker *broker) {
    struct loop loop = {.broker = broker, .alive = true};
    bool good = prepare(&loop);
    while (good && loop.alive && !is_over(&loop))
        good = wait_once(&loop);
    if (!good)
        report("nothing can be waited for: %s", strerror(errno));
    if (!is_over(&loop))
        end_command(broker);
    if (!good)
        return STATUS_OWN;
    broker->machine.ended = broker->machine.ended || !loop.alive;
    return broker->machine.ended ? STATUS_SERVED_DIED : status_of(&broker->signals);
}
