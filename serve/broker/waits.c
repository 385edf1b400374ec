#include "waits.h"

#include <errno.h>
#include <inttypes.h>
#include <limits.h>
#include <stdarg.h>
#include <stdio.h>
#include <string.h>
#include <sys/epoll.h>
#include <sys/socket.h>

#include "broker.h"
#include "clock.h"
#include "notify/flow.h"

/* What a wait has come to: the error's number, 0 where it is met, WAITS_ON where it goes on; and a line of text: what
 * is told where it is met, or what stands in its way. */
struct outcome {
    int error;
    char text[CONSUMER_ROOM + 64];
};

#define WAITS_ON (-1)

/* How often it is looked whether programs have read events, where that isn't seen: nanoseconds in between. */
#define READ_LOOKS (5 * CLOCK_MILLISECOND)

void waits_count_read(struct broker *broker, unsigned chip, uint32_t line) {
    if (chip >= WIRE_CHIPS || line >= WAIT_LINES)
        return;
    broker->counts.read[chip][line]++;
    observers_mark(&broker->observers, chip, line);
}

__attribute__((format(printf, 3, 4))) static void conclude(struct outcome *outcome, int error, const char *form, ...) {
    va_list values;
    va_start(values, form);
    vsnprintf(outcome->text, sizeof outcome->text, form, values);
    va_end(values);
    outcome->error = error;
}

static void look_at_holder(const struct broker *broker, const struct wait *wait, struct outcome *outcome) {
    const struct file *request = files_request_of(&broker->files, wait->chip, wait->line);
    const char *holder = !request ? "" : request->consumer[0] ? request->consumer : "?";
    bool wanted =
        wait->kind == WAIT_RELEASED ? !request : request && (!wait->holder[0] || strcmp(holder, wait->holder) == 0);
    if (wanted && request)
        conclude(outcome, 0, "%s\n", holder);
    else if (wanted)
        conclude(outcome, 0, "%s", "");
    else
        conclude(outcome, WAITS_ON, "line %" PRIu32 " of gpiochip%u is held by %s", wait->line, wait->chip,
            request ? holder : "nobody");
}

/* Asks the machine for the level of a line, which changes nothing, so that it needn't stand in the transcript. */
static bool look_at_level(struct broker *broker, const struct wait *wait, struct outcome *outcome) {
    struct machine *machine = &broker->machine;
    char line[64];
    int length = snprintf(line, sizeof line, "read gpiochip%u/sim_gpio%" PRIu32 "/value", wait->chip, wait->line);
    machine_put(machine, line, (size_t)length, false);
    if (!machine_take(machine))
        return false;
    int error = machine_error(machine);
    if (error == ENOENT || error == ENODEV)
        conclude(outcome, WAITS_ON, "gpiochip%u isn't there", wait->chip);
    else if (error)
        conclude(outcome, error, "gpiochip%u has no line %" PRIu32, wait->chip, wait->line);
    else if (wait->kind == WAIT_LEVEL && (uint64_t)(machine->text[0] - '0') == wait->number)
        conclude(outcome, 0, "%s", "");
    else
        conclude(
            outcome, WAITS_ON, "line %" PRIu32 " of gpiochip%u has level %c", wait->line, wait->chip, machine->text[0]);
    return true;
}

static void look_at_count(const struct wait *wait, uint64_t count, struct outcome *outcome) {
    if (count >= wait->number)
        conclude(outcome, 0, "%" PRIu64 "\n", count);
    else if (wait->kind == WAIT_READ)
        conclude(outcome, WAITS_ON, "%" PRIu64 " events of line %" PRIu32 " of gpiochip%u were read", count, wait->line,
            wait->chip);
    else
        conclude(outcome, WAITS_ON, "gpiochip%u was opened %" PRIu64 " times", wait->chip, count);
}

/* What a wait has come to by now. False where the served program has ended. */
static bool look_at(struct broker *broker, const struct wait *wait, struct outcome *outcome) {
    const struct counts *counts = &broker->counts;
    bool alive = true;
    if (wait->kind == WAIT_READ && broker->notify)
        flow_count_reads_of(broker, wait->chip);
    if (wait->kind == WAIT_LEVEL)
        alive = look_at_level(broker, wait, outcome);
    else if (wait->kind == WAIT_READ)
        look_at_count(wait, counts->read[wait->chip][wait->line], outcome);
    else if (wait->kind == WAIT_OPENED)
        look_at_count(wait, counts->opened[wait->chip], outcome);
    else
        look_at_holder(broker, wait, outcome);
    if (!alive || outcome->error != WAITS_ON || broker->home.present[wait->chip])
        return alive;
    if (counts->known[wait->chip])
        conclude(outcome, ENODEV, "gpiochip%u is gone", wait->chip);
    else
        conclude(outcome, WAITS_ON, "gpiochip%u isn't there", wait->chip);
    return true;
}

/* The name of an error that ends a wait. */
static const char *name_of(int error) {
    switch (error) {
    case ETIMEDOUT:
        return "ETIMEDOUT";
    case ENODEV:
        return "ENODEV";
    case EINVAL:
        return "EINVAL";
    case EBUSY:
        return "EBUSY";
    default:
        return "EIO";
    }
}

static void answer(struct client *client, const struct outcome *outcome) {
    char text[sizeof outcome->text + 64];
    struct answer answer = {.error = outcome->error};
    if (outcome->error)
        snprintf(text, sizeof text, "%s: %s\n", name_of(outcome->error), outcome->text);
    else
        snprintf(text, sizeof text, "%s", outcome->text);
    answer.length = (uint32_t)strlen(text);
    clients_reply(client, &answer, text, -1);
}

/* A client that was answered waits no more: its requests are read again from now on. */
static void end_wait(struct broker *broker, struct client *client) {
    client->wait.kind = WAIT_NOTHING;
    broker->clients.waiting--;
    if (!watch_change(broker->poller, &client->watch, EPOLLIN))
        shutdown(client->watch.number, SHUT_RDWR);
}

static void end_by(struct broker *broker, struct client *client, const struct outcome *outcome) {
    answer(client, outcome);
    end_wait(broker, client);
}

static void time_out(const struct wait *wait, struct outcome *outcome) {
    char seen[sizeof outcome->text];
    memcpy(seen, outcome->text, sizeof seen);
    conclude(outcome, ETIMEDOUT, "after %" PRIu64 " ms %s", wait->limit, seen);
}

/* Lets a client wait whose wait is not over at once. False where it can't be waited for. */
static bool go_on(struct broker *broker, struct client *client) {
    client->wait.until = clock_monotonic() + client->wait.limit * CLOCK_MILLISECOND;
    if (!watch_change(broker->poller, &client->watch, 0))
        return false;
    broker->clients.waiting++;
    return true;
}

/* Begins a wait for changes, which is answered at the end of this turn of the loop at the earliest. */
static void begin_changed(struct broker *broker, struct client *client) {
    struct outcome outcome = {.error = WAITS_ON};
    if (!observers_add(broker, client))
        conclude(&outcome, EBUSY, "%d clients observe already", OBSERVERS_MOST);
    else if (go_on(broker, client))
        return;
    else
        conclude(&outcome, EIO, "nothing can be waited for");
    client->wait.kind = WAIT_NOTHING;
    answer(client, &outcome);
}

bool waits_begin(struct broker *broker, struct client *client, const char *line) {
    struct wait *wait = &client->wait;
    struct outcome outcome = {.error = WAITS_ON};
    const char *refusal = wait_read(wait, line);
    if (refusal) {
        struct answer none = {.found = -1, .error = EINVAL, .length = (uint32_t)strlen(refusal)};
        wait->kind = WAIT_NOTHING;
        clients_reply(client, &none, refusal, -1);
        return true;
    }
    if (wait->kind == WAIT_CHANGED) {
        begin_changed(broker, client);
        return true;
    }
    /* (this says too whether the chip has such a line) */
    bool alive = wait->kind == WAIT_OPENED || look_at_level(broker, wait, &outcome);
    if (alive && outcome.error == WAITS_ON)
        alive = look_at(broker, wait, &outcome);
    if (alive && outcome.error == WAITS_ON && wait->limit == 0)
        time_out(wait, &outcome);
    if (alive && outcome.error == WAITS_ON && go_on(broker, client))
        return true;
    wait->kind = WAIT_NOTHING;
    if (outcome.error == WAITS_ON)
        conclude(&outcome, EIO, "nothing can be waited for");
    answer(client, &outcome);
    return alive;
}

bool waits_look(struct broker *broker) {
    struct outcome outcome;
    if (broker->clients.waiting == 0)
        return true;
    for (struct client *client = broker->clients.first; client; client = client->next) {
        if (client->wait.kind == WAIT_NOTHING || client->wait.kind == WAIT_CHANGED)
            continue;
        if (!look_at(broker, &client->wait, &outcome))
            return false;
        if (outcome.error != WAITS_ON)
            end_by(broker, client, &outcome);
    }
    return true;
}

/* Whether what a wait is for may come about unseen: programs read events without the broker where the kernel notifies
 * of their calls. Then it is looked at again and again. */
static bool is_unseen(const struct broker *broker, const struct wait *wait) {
    return broker->notify && wait->kind == WAIT_READ;
}

/* Answers a client that waits for changes, where there are some and it may be reported by now, or its time is over. */
static bool look_for_changes(struct broker *broker, struct client *client) {
    struct outcome outcome;
    uint64_t now = clock_monotonic();
    if (observers_has_news(broker, client) && observers_rest(client, now) == 0) {
        if (!observers_report(broker, client))
            return false;
        struct answer reported = {.length = (uint32_t)broker->observers.length};
        clients_reply(client, &reported, broker->observers.text, -1);
        end_wait(broker, client);
    } else if (client->wait.until <= now) {
        conclude(&outcome, WAITS_ON, "there is nothing to report yet");
        time_out(&client->wait, &outcome);
        end_by(broker, client, &outcome);
    }
    return true;
}

bool waits_expire(struct broker *broker) {
    struct outcome outcome;
    if (broker->clients.waiting == 0)
        return true;
    for (struct client *client = broker->clients.first; client; client = client->next) {
        bool is_over = client->wait.until <= clock_monotonic();
        if (client->wait.kind == WAIT_CHANGED && !look_for_changes(broker, client))
            return false;
        if (client->wait.kind == WAIT_CHANGED)
            continue;
        if (client->wait.kind == WAIT_NOTHING || !(is_over || is_unseen(broker, &client->wait)))
            continue;
        if (!look_at(broker, &client->wait, &outcome))
            return false;
        if (is_over && outcome.error == WAITS_ON)
            time_out(&client->wait, &outcome);
        if (outcome.error != WAITS_ON)
            end_by(broker, client, &outcome);
    }
    return true;
}

/* When a client that waits has to be looked at next, in nanoseconds of CLOCK_MONOTONIC. */
static uint64_t next_look(struct broker *broker, const struct client *client, uint64_t time) {
    uint64_t next = client->wait.until;
    if (client->wait.kind == WAIT_CHANGED && observers_has_news(broker, client))
        next = time + observers_rest(client, time);
    else if (client->wait.kind == WAIT_CHANGED && broker->notify)
        next = time + OBSERVERS_LOOKS;
    else if (is_unseen(broker, &client->wait))
        next = time + READ_LOOKS;
    return next < client->wait.until ? next : client->wait.until;
}

int waits_time(struct broker *broker) {
    uint64_t soonest = UINT64_MAX, time = clock_monotonic();
    if (broker->clients.waiting == 0)
        return -1;
    for (const struct client *client = broker->clients.first; client; client = client->next) {
        if (client->wait.kind == WAIT_NOTHING)
            continue;
        uint64_t next = next_look(broker, client, time);
        soonest = next < soonest ? next : soonest;
    }
    uint64_t left = soonest > time ? (soonest - time + CLOCK_MILLISECOND - 1) / CLOCK_MILLISECOND : 0;
    return left > INT_MAX ? INT_MAX : (int)left;
}
