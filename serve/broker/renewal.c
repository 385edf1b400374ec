#include "renewal.h"

#include <stdio.h>
#include <string.h>
#include <sys/epoll.h>

#include "board.h"
#include "broker.h"
#include "options.h"
#include "report.h"

void renewal_prepare(
    struct broker *broker, char *const *words, const struct board *board, const struct options *options) {
    broker->renewal = (struct renewal){.words = words, .board = board, .options = options, .number = 1};
}

/* Whether all has gone that a program can have made: chips, devices of the tree, and files of chips. */
static bool is_bare(const struct broker *broker) {
    for (unsigned chip = 0; chip < WIRE_CHIPS; chip++)
        if (broker->home.present[chip])
            return false;
    for (const struct file *file = broker->files.first; file; file = file->next)
        if (!files_is_gone(file))
            return false;
    return !broker->tree.devices;
}

static bool has_chips(const struct broker *broker) {
    for (unsigned chip = 0; chip < WIRE_CHIPS; chip++)
        if (broker->home.present[chip])
            return true;
    return false;
}

/* Writes the name of a session's file: that of the first one, and the number behind it. NULL where none is named, or
 * the name is too long, as `good` says. */
static const char *name_of(char name[PATH_MAX], const char *first, unsigned number, bool *good) {
    if (!first)
        return NULL;
    if (snprintf(name, PATH_MAX, "%s.%u", first, number) < PATH_MAX)
        return name;
    report("the name %s.%u is too long", first, number);
    *good = false;
    return NULL;
}

/* Goes on with the files of the next session. */
static bool open_files(struct broker *broker) {
    struct renewal *renewal = &broker->renewal;
    const struct options *options = renewal->options;
    struct asker asker = broker->record.asker;
    bool written = record_close(&broker->record), good = true;
    written = waves_close(&broker->waves, broker->now) && written;
    renewal->is_unwritten = renewal->is_unwritten || !written;
    renewal->number++;
    const char *transcript = name_of(renewal->transcript, options->transcript, renewal->number, &good);
    const char *answers = name_of(renewal->answers, options->answers, renewal->number, &good);
    const char *waves = name_of(renewal->waves, options->waves, renewal->number, &good);
    good = record_open(&broker->record, transcript, answers, &broker->patience) && good;
    broker->record.asker = asker;
    return waves_open(&broker->waves, waves, options->manual ? 1 : 1000, &broker->patience) && good;
}

/* Lets go of all that belonged to the old machine. */
static void forget(struct broker *broker) {
    const bool none[WIRE_CHIPS] = {false};
    for (struct file *file = broker->files.first; file; file = file->next)
        files_hang_up(&broker->files, file);
    tree_free(&broker->tree);
    home_name_chips(&broker->home, none);
    memset(&broker->counts, 0, sizeof broker->counts);
    observers_mark_reset(&broker->observers);
    memset(&broker->looks, 0, sizeof broker->looks);
    broker->has_due = broker->asks_due = false;
    epoll_ctl(broker->poller, EPOLL_CTL_DEL, broker->served.number, NULL);
    machine_end(&broker->machine);
}

bool renewal_begin(struct broker *broker) {
    struct renewal *renewal = &broker->renewal;
    pid_t before = broker->machine.pid;
    forget(broker);
    renewal->is_used = renewal->is_awaited = false;
    bool good = open_files(broker);
    if (!machine_start(&broker->machine, renewal->words, &broker->record, &broker->patience)) {
        renewal->has_failed = true;
        broker->machine.ended = true;
        return false;
    }
    descendants_replace(&broker->signals.descendants, before, broker->machine.pid);
    broker->served = (struct watch){WATCH_SERVED, broker->machine.from, NULL};
    if (!good || !watch_by(broker->poller, &broker->served, 0) || !board_hand_in(broker, renewal->board)) {
        report("there is no new machine");
        return false;
    }
    waves_begin(&broker->waves, broker->now);
    return true;
}

bool renewal_look(struct broker *broker) {
    struct renewal *renewal = &broker->renewal;
    renewal->is_used = renewal->is_used || has_chips(broker);
    if (!renewal->options->each || !renewal->is_used || renewal->is_awaited || !is_bare(broker))
        return true;
    renewal->is_awaited = true;
    return renewal->board->path ? renewal_begin(broker) : true;
}

bool renewal_before_statement(struct broker *broker) {
    return broker->renewal.is_awaited ? renewal_begin(broker) : true;
}

void renewal_report_full(struct broker *broker) {
    static bool is_reported;
    if (is_reported)
        return;
    is_reported = true;
    report("all %d numbers of chips are used up: %s", WIRE_CHIPS,
        broker->renewal.options->each ? "some file, chip or device was there all the time, so no new machine began"
                                      : "`gpioserve --each` begins a new machine whenever all have gone");
}
