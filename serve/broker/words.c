#include "words.h"

#include <string.h>

struct word words_first(const char *at) {
    at += strspn(at, " ");
    return (struct word){at, strcspn(at, " ")};
}

struct word words_after(struct word word) {
    return words_first(word.at + word.length);
}

bool words_is(struct word word, const char *text) {
    return word.length == strlen(text) && memcmp(word.at, text, word.length) == 0;
}

bool words_is_one_of(struct word word, const char *const *texts) {
    for (; *texts; texts++)
        if (words_is(word, *texts))
            return true;
    return false;
}

bool words_number(struct word word, uint64_t most, uint64_t *number) {
    uint64_t sum = 0;
    for (size_t i = 0; i < word.length; i++) {
        uint64_t digit = (uint64_t)(word.at[i] - '0');
        if (word.at[i] < '0' || word.at[i] > '9' || digit > most || sum > (most - digit) / 10)
            return false;
        sum = 10 * sum + digit;
    }
    *number = sum;
    return word.length > 0;
}

bool words_time(struct word word, uint64_t *time) {
    size_t digits = 0;
    while (digits < word.length && word.at[digits] >= '0' && word.at[digits] <= '9')
        digits++;
    struct word number = {word.at, digits}, unit = {word.at + digits, word.length - digits};
    if (words_is(unit, "ms"))
        return words_number(number, WORDS_TIME_MOST, time);
    if (!words_is(unit, "s") || !words_number(number, WORDS_TIME_MOST / 1000, time))
        return false;
    *time *= 1000;
    return true;
}
