/* The words of a line, and what they mean. */
#ifndef WORDS_H
#define WORDS_H

#include <stdbool.h>
#include <stddef.h>

/* A line that is being read. What is wrong with it is reported once, by words_wrong. */
struct words {
    const char *file;
    unsigned long line;
    char *text;    /* the line; blanks become zeros as words are taken */
    char *next;    /* where the next word is looked for */
    char *word;    /* the last word that was taken */
    bool is_wrong; /* whether something was reported */
};

/* The next word, or NULL at the line's end. */
char *words_next(struct words *words);

/* The next word; where there is none it is reported that `what` is missing, and NULL returned. */
char *words_need(struct words *words, const char *what);

/* The rest of the line without the blanks around it. NULL where there is none, which is reported. */
char *words_rest(struct words *words, const char *what);

/* Reports what is wrong with the last word. Returns false, for the caller to return. */
bool words_wrong(struct words *words, const char *reason);

/* The last word as a decimal number, or one with 0x, of at most `most`. False where it is none, which is reported. */
bool words_number(struct words *words, unsigned long most, unsigned long *number);

/* Takes the words up to the line's end or up to `as` as bytes: pairs of hexadecimal digits, `HH*N`, or `-` alone. The
 * caller frees them. False where a word is neither, which is reported. */
bool words_bytes(struct words *words, unsigned char **bytes, size_t *length, bool *has_as);

#endif
