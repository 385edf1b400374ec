/* Clients that observe: `wait changed` is answered by what has changed since the last response to the same client.
 *
 * Of each client it is kept which lines have to be reported, so one that does not ask takes no more memory than
 * others. The machine is asked for a line where it was marked since, and when its client asks. That changes nothing, so
 * it stands in no transcript, except for the opening of the chip by which it is done. */
#ifndef OBSERVERS_H
#define OBSERVERS_H

#include <stdbool.h>
#include <stddef.h>
#include <stdint.h>

#include "../uapi.h"
#include "../wire.h"
#include "recent.h"

/* Clients that observe at a time, at most. */
#define OBSERVERS_MOST 16
/* How often it is looked whether programs have read events, where that isn't seen: nanoseconds in between. */
#define OBSERVERS_LOOKS (100 * UINT64_C(1000000))

struct broker;
struct client;

struct observer {
    struct observer *next;
    struct observers *all;
    bool reset;   /* the machine is another one than at the last response */
    bool chips;   /* chips may have come or gone */
    bool clock;   /* the manual clock has moved */
    bool has_all; /* everything was reported to it once */
    bool known[WIRE_CHIPS];
    uint32_t sizes[WIRE_CHIPS]; /* lines of the known chips */
    bool marked[WIRE_CHIPS];    /* a line of the chip is marked */
    uint64_t lines[WIRE_CHIPS][UAPI_CHIP_LINES / 64];
    uint64_t heard; /* statements before this one */
    uint64_t due;   /* not answered before this time of CLOCK_MONOTONIC, in nanoseconds */
};

struct observers {
    struct observer *first;
    size_t count;
    bool open[WIRE_CHIPS]; /* chips with a file by which their lines are asked for */
    char *chips;           /* what gpiodetect listed last */
    size_t chips_room;
    uint64_t looks; /* the next look for events that were read unseen, by CLOCK_MONOTONIC in nanoseconds */
    char *text;     /* the response that is made */
    size_t length, room;
};

/* Begins to observe for a client; everything is reported to it first. False where there are too many. A client
 * that observes already goes on. */
bool observers_add(struct broker *broker, struct client *client);

/* Ends what a client observes, and frees it. */
void observers_remove(struct client *client);

/* Marks a line whose level, holder or count of events may have changed, or all lines; that the clock has moved; and
 * that the machine is another one. */
void observers_mark(struct observers *observers, unsigned chip, uint32_t line);
void observers_mark_all(struct observers *observers);
void observers_mark_clock(struct observers *observers);
void observers_mark_reset(struct observers *observers);

/* Keeps what gpiodetect lists, from which chips are reported. observers_free frees it. */
void observers_note_chips(struct observers *observers, const char *rows);
void observers_free(struct observers *observers);

/* To be called where chips may have come or gone: closes the files of those that have gone. False where the served
 * program has ended. */
bool observers_take_chips(struct broker *broker);

/* Whether something was not reported to a client, and how long it must not be reported yet, in nanoseconds. */
bool observers_has_news(struct broker *broker, const struct client *client);
uint64_t observers_rest(const struct client *client, uint64_t now);

/* Makes the response to a client, in `text`: as much of what has changed as one response takes. False where the served
 * program has ended. */
bool observers_report(struct broker *broker, struct client *client);

#endif
