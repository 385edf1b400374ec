#include "words.h"

#include <ctype.h>
#include <errno.h>
#include <stdio.h>
#include <stdlib.h>
#include <string.h>

enum { BYTES_MOST = 65536 };

char *words_next(struct words *words) {
    words->next += strspn(words->next, " \t");
    words->word = words->next;
    if (*words->next == '\0')
        return NULL;
    words->next += strcspn(words->next, " \t");
    if (*words->next != '\0')
        *words->next++ = '\0';
    return words->word;
}

bool words_wrong(struct words *words, const char *reason) {
    if (!words->is_wrong)
        fprintf(stderr, "%s:%lu:%zu: %s\n", words->file, words->line, (size_t)(words->word - words->text) + 1, reason);
    words->is_wrong = true;
    return false;
}

char *words_need(struct words *words, const char *what) {
    char reason[80];
    char *word = words_next(words);
    if (!word) {
        snprintf(reason, sizeof reason, "%s is missing", what);
        words_wrong(words, reason);
    }
    return word;
}

char *words_rest(struct words *words, const char *what) {
    char *rest = words->next + strspn(words->next, " \t");
    size_t length = strlen(rest);
    while (length && (rest[length - 1] == ' ' || rest[length - 1] == '\t'))
        rest[--length] = '\0';
    if (!length) {
        words_need(words, what);
        return NULL;
    }
    words->word = rest;
    words->next = rest + length;
    return rest;
}

bool words_number(struct words *words, unsigned long most, unsigned long *number) {
    char *end;
    errno = 0;
    bool is_hexadecimal = words->word[0] == '0' && words->word[1] == 'x';
    *number = strtoul(words->word, &end, is_hexadecimal ? 16 : 10);
    if (!isdigit((unsigned char)words->word[0]) || *end != '\0' || end == words->word || errno)
        return words_wrong(words, "this is no number");
    return *number <= most || words_wrong(words, "this number is too large");
}

static int digit_of(char letter) {
    static const char digits[] = "0123456789abcdef";
    const char *place = letter ? strchr(digits, tolower((unsigned char)letter)) : NULL;
    return place ? (int)(place - digits) : -1;
}

/* Adds the pairs of the last word up to `end` to the bytes, `times` times. */
static bool add_pairs(
    struct words *words, const char *end, unsigned long times, unsigned char **bytes, size_t *length) {
    size_t pairs = (size_t)(end - words->word) / 2;
    if ((end - words->word) % 2 || !pairs || (times != 1 && pairs != 1))
        return words_wrong(words, "bytes are pairs of hexadecimal digits, HH*N, or - alone");
    if (*length + pairs * times > BYTES_MOST)
        return words_wrong(words, "these are too many bytes");
    unsigned char *more = realloc(*bytes, *length + pairs * times);
    if (!more)
        return words_wrong(words, "there is not enough memory");
    *bytes = more;
    for (size_t i = 0; i < pairs * times; i++) {
        const char *pair = words->word + (times == 1 ? 2 * i : 0);
        int high = digit_of(pair[0]), low = digit_of(pair[1]);
        if (high < 0 || low < 0)
            return words_wrong(words, "bytes are pairs of hexadecimal digits, HH*N, or - alone");
        more[(*length)++] = (unsigned char)(high * 16 + low);
    }
    return true;
}

static bool add_word(struct words *words, unsigned char **bytes, size_t *length) {
    char *star = strchr(words->word, '*');
    unsigned long times = 1;
    if (star) {
        struct words after = *words;
        after.word = star + 1;
        bool is_number = words_number(&after, BYTES_MOST, &times);
        words->is_wrong = after.is_wrong;
        if (!is_number || times == 0)
            return words_wrong(words, "after the star stands how often, from 1 on");
    }
    return add_pairs(words, star ? star : words->word + strlen(words->word), times, bytes, length);
}

bool words_bytes(struct words *words, unsigned char **bytes, size_t *length, bool *has_as) {
    const char *word = words_need(words, "bytes, or -,");
    *bytes = NULL;
    *length = 0;
    *has_as = false;
    if (!word)
        return false;
    if (strcmp(word, "-") == 0) {
        word = words_next(words);
        *has_as = word && strcmp(word, "as") == 0;
        return !word || *has_as || words_wrong(words, "nothing comes after - but as NAME");
    }
    for (; word && strcmp(word, "as") != 0; word = words_next(words))
        if (!add_word(words, bytes, length))
            return false;
    *has_as = word != NULL;
    return true;
}
