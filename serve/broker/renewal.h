/* A new machine in the place of one whose chips are all gone: the served program is started anew, with the board, and
 * what it is asked is another session. Chips have the numbers from 0 on again. */
#ifndef RENEWAL_H
#define RENEWAL_H

#include <limits.h>
#include <stdbool.h>

struct board;
struct broker;
struct options;

struct renewal {
    char *const *words;                                            /* of the served program */
    const struct board *board;                                     /* that is handed in */
    const struct options *options;                                 /* which name the files of the sessions */
    bool is_used;                                                  /* a chip was there since the machine began */
    bool is_awaited;                                               /* the next statement is to find a new machine */
    bool has_failed;                                               /* there is no served program any more */
    bool is_unwritten;                                             /* a file of a session before this one isn't whole */
    unsigned number;                                               /* of the session, from 1 */
    char transcript[PATH_MAX], answers[PATH_MAX], waves[PATH_MAX]; /* of the sessions behind the first one */
};

/* Takes what a new machine is made of, which stays the caller's. */
void renewal_prepare(
    struct broker *broker, char *const *words, const struct board *board, const struct options *options);

/* Looks, at the end of a request, whether all has gone: then a new machine is begun where that is wanted. It begins
 * with the board at once, and without one with the next statement, so that the last session isn't an empty one. False
 * where no served program answers any more, as for both functions below. */
bool renewal_look(struct broker *broker);

/* To be called before a request is answered by statements: begins the new machine that is awaited. */
bool renewal_before_statement(struct broker *broker);

/* Begins a new machine at once. Files that are open show that their chips are gone. */
bool renewal_begin(struct broker *broker);

/* Says once that all numbers of chips are used up, and what helps. */
void renewal_report_full(struct broker *broker);

#endif
