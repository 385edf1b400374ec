#include "calls.h"

#include <errno.h>
#include <inttypes.h>
#include <limits.h>
#include <stdio.h>
#include <stdlib.h>
#include <string.h>

#include "broker.h"
#include "clock.h"
#include "outside.h"
#include "report.h"
#include "words.h"

/* The largest number of a call that can be planned. */
#define MOST_CALL 1000000000u

/* Reads `N` or `N+`, up to `end`. */
static bool read_call(const char *word, const char *end, uint64_t *call, bool *onwards) {
    size_t length = (size_t)(end - word);
    *onwards = length > 0 && word[length - 1] == '+';
    struct word number = {word, length - (*onwards ? 1 : 0)};
    return words_number(number, MOST_CALL, call) && *call > 0;
}

/* Reads a call with what stands behind it: `N`, `N+`, `N:TIME` or `N+:TIME`. */
static bool read_place(const char *word, struct planned *planned) {
    const char *colon = strchr(word, ':'), *end = colon ? colon : word + strlen(word);
    return read_call(word, end, &planned->call, &planned->onwards) &&
           (!colon || words_time((struct word){colon + 1, strlen(colon + 1)}, &planned->delay));
}

bool calls_plan(struct calls *calls, enum calls_side side, const char *call, const char *statement) {
    const char *option = side == CALLS_BEFORE ? "--at" : "--after";
    struct planned planned = {.side = side, .statement = statement};
    if (!read_place(call, &planned)) {
        report("%s takes a call: 12, or 12+ for each from the 12th on, or 12:500ms for half a second later", option);
        return false;
    }
    if (!statement) {
        report("%s %s has no statement", option, call);
        return false;
    }
    if (calls->count == CALLS_PLANNED) {
        report("at most %d statements can be planned", CALLS_PLANNED);
        return false;
    }
    calls->planned[calls->count++] = planned;
    return true;
}

bool calls_plan_fault(struct calls *calls, const char *call) {
    if (read_call(call, call + strlen(call), &calls->fault, &calls->faults_on))
        return true;
    report("--at-fault takes the number of a driver call, as 3, or 3+ for each from the 3rd on");
    return false;
}

/* Says a planned statement. What the machine refuses is reported: the run goes on. */
static bool say(struct broker *broker, const char *statement, uint64_t call) {
    struct asker asker = broker->record.asker;
    struct said said;
    broker->record.asker = (struct asker){.pid = 0};
    bool alive = outside_say(broker, statement, strlen(statement), &said);
    broker->record.asker = asker;
    if (alive && said.error != 0)
        report("at call %" PRIu64 " `%s` is refused: %s", call, statement,
            said.text && said.length > 0 ? said.text : strerror(said.error));
    said_free(&said);
    return alive;
}

/* Says what is planned on that side of the last call, or begins to wait for its time. */
static bool say_planned(struct broker *broker, enum calls_side side) {
    struct calls *calls = &broker->calls;
    for (size_t i = 0; i < calls->count; i++) {
        struct planned *planned = &calls->planned[i];
        bool is_here = planned->call == calls->made || (planned->onwards && planned->call < calls->made);
        if (planned->side != side || !is_here)
            continue;
        if (planned->delay > 0) {
            planned->waits = true;
            planned->until = clock_monotonic() + planned->delay * CLOCK_MILLISECOND;
        } else if (!say(broker, planned->statement, calls->made)) {
            return false;
        }
    }
    return true;
}

/* Writes what the question is, where it is a call: else false. */
static bool describe(struct broker *broker) {
    const struct question *question = &broker->packet.question;
    struct calls *calls = &broker->calls;
    calls->drives = false;
    if (question->op == WIRE_OPEN) {
        snprintf(calls->text, sizeof calls->text, "open gpiochip%" PRIu32, question->command);
        return question->command < WIRE_CHIPS;
    }
    if (question->op != WIRE_IOCTL && question->op != WIRE_READ)
        return false;
    const struct file *file = files_find(&broker->files, question->ino);
    if (!file || files_is_gone(file))
        return false;
    const struct uapi_command *command = uapi_find(file->kind, question->command);
    if (question->op == WIRE_READ)
        snprintf(calls->text, sizeof calls->text, "read %s", file->name);
    else if (command)
        snprintf(calls->text, sizeof calls->text, "%s %s", command->word, file->name);
    else
        snprintf(calls->text, sizeof calls->text, "0x%08" PRIx32 " %s", question->command, file->name);
    calls->drives = question->op == WIRE_IOCTL && command && command->drives;
    return true;
}

/* Whether the next driver call is to fail. */
static bool is_to_fail(const struct calls *calls) {
    uint64_t next = calls->driven + 1;
    return calls->drives && calls->fault > 0 && (next == calls->fault || (calls->faults_on && next > calls->fault));
}

bool calls_begin(struct broker *broker) {
    struct calls *calls = &broker->calls;
    calls->text[0] = 0;
    if (!describe(broker)) {
        calls->text[0] = 0;
        return true;
    }
    calls->made++;
    return say_planned(broker, CALLS_BEFORE) && (!is_to_fail(calls) || say(broker, "fault 1", calls->made));
}

bool calls_end(struct broker *broker, int error) {
    struct calls *calls = &broker->calls;
    const struct asker *asker = &broker->record.asker;
    if (calls->text[0] == 0)
        return true;
    bool asked = calls->drives && (error == 0 || error == EIO);
    if (asked)
        calls->driven++;
    if (calls->log.file)
        fprintf(calls->log.file, "%" PRIu64 " %" PRIu64 " %ld %s %s -> %s\n", calls->made, asked ? calls->driven : 0,
            (long)asker->pid, asker->name, calls->text, error == 0 ? "ok" : machine_error_name(error));
    return say_planned(broker, CALLS_AFTER);
}

bool calls_tick(struct broker *broker) {
    struct calls *calls = &broker->calls;
    for (size_t i = 0; i < calls->count; i++) {
        struct planned *planned = &calls->planned[i];
        if (!planned->waits || planned->until > clock_monotonic())
            continue;
        planned->waits = false;
        if (!say(broker, planned->statement, planned->call))
            return false;
    }
    return true;
}

int calls_time(const struct broker *broker) {
    const struct calls *calls = &broker->calls;
    uint64_t least = UINT64_MAX, at = clock_monotonic();
    for (size_t i = 0; i < calls->count; i++) {
        const struct planned *planned = &calls->planned[i];
        uint64_t left = planned->until > at ? (planned->until - at + CLOCK_MILLISECOND - 1) / CLOCK_MILLISECOND : 0;
        if (planned->waits && left < least)
            least = left;
    }
    return least == UINT64_MAX ? -1 : least > INT_MAX ? INT_MAX : (int)least;
}
