/* The words of a line, which blanks divide. */
#ifndef WORDS_H
#define WORDS_H

#include <stdbool.h>
#include <stddef.h>
#include <stdint.h>

/* A word: where it begins in its line, and how long it is; a length of 0 where there is none. */
struct word {
    const char *at;
    size_t length;
};

/* The first word from there on, and the first one after a word. */
struct word words_first(const char *at);
struct word words_after(struct word word);

bool words_is(struct word word, const char *text);
/* Whether it is one of the texts, after the last of which stands NULL. */
bool words_is_one_of(struct word word, const char *const *texts);

/* Reads a word of decimal digits. False where it isn't one, or above `most`. */
bool words_number(struct word word, uint64_t most, uint64_t *number);

/* The longest time that a word says, in milliseconds: a day. */
#define WORDS_TIME_MOST (24 * 3600 * 1000u)

/* Reads a time as `500ms` or `5s`, in milliseconds. False where the word is none, or above WORDS_TIME_MOST. */
bool words_time(struct word word, uint64_t *time);

#endif
