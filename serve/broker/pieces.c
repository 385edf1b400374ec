#include "pieces.h"

#include <stdbool.h>
#include <stdint.h>
#include <stdio.h>
#include <string.h>

/* Runs of zeros from this length on are counted. */
#define LEAST_RUN 8
/* A line has at most 128 words, each of at most 1300 bytes. */
#define MOST_WORDS 100
#define LONGEST_WORD 512

static size_t zeros_at(const unsigned char *bytes, size_t at, size_t length) {
    size_t end = at;
    while (end < length && bytes[end] == 0)
        end++;
    return end - at;
}

static size_t write_pair(char *text, unsigned char byte) {
    static const char digits[] = "0123456789abcdef";
    text[0] = digits[byte >> 4];
    text[1] = digits[byte & 15];
    return 2;
}

/* Writes runs of zeros by their counts. How many words that makes; `length` becomes the text's. */
static unsigned write_runs(char *text, const unsigned char *bytes, size_t *length) {
    size_t out = 0, at = 0;
    unsigned words = 1;
    bool in_word = true;
    while (at < *length) {
        size_t zeros = zeros_at(bytes, at, *length);
        bool run = zeros >= LEAST_RUN;
        if (at > 0 && (run || !in_word)) {
            text[out++] = ' ';
            words++;
        }
        if (run)
            out += (size_t)sprintf(text + out, "00*%zu", zeros);
        else
            out += write_pair(text + out, bytes[at]);
        at += run ? zeros : 1;
        in_word = !run;
    }
    *length = out;
    return words;
}

/* Writes pairs alone. */
static size_t write_pairs(char *text, const unsigned char *bytes, size_t length) {
    size_t out = 0;
    for (size_t at = 0; at < length; at++) {
        if (at > 0 && at % LONGEST_WORD == 0)
            text[out++] = ' ';
        out += write_pair(text + out, bytes[at]);
    }
    return out;
}

size_t pieces_write(char *text, const unsigned char *bytes, size_t length) {
    size_t out = length;
    if (length == 0)
        text[out++] = '-';
    else if (write_runs(text, bytes, &out) > MOST_WORDS)
        out = write_pairs(text, bytes, length);
    text[out] = 0;
    return out;
}

static int digit_of(char sign) {
    if (sign >= '0' && sign <= '9')
        return sign - '0';
    if (sign >= 'a' && sign <= 'f')
        return sign - 'a' + 10;
    return -1;
}

/* A number of at most seven digits at the text's start, which is moved past it; 0 where there is none. */
static size_t read_count(const char **text) {
    size_t count = 0;
    for (int digits = 0; **text >= '0' && **text <= '9' && digits < 7; digits++)
        count = 10 * count + (size_t)(*(*text)++ - '0');
    return count;
}

/* Reads one pair, and the count after it. How many bytes it means, or -1. */
static long read_piece(const char **text, unsigned char *bytes, size_t room) {
    int high = digit_of((*text)[0]);
    int low = high < 0 ? -1 : digit_of((*text)[1]);
    size_t count = 1;
    if (low < 0)
        return -1;
    *text += 2;
    if (**text == '*') {
        (*text)++;
        count = read_count(text);
    }
    if (count == 0 || count > room)
        return -1;
    memset(bytes, high << 4 | low, count);
    return (long)count;
}

static bool at_end(const char *text) {
    return *text == 0 || *text == '\n';
}

long pieces_read(const char *text, unsigned char *bytes, size_t room) {
    size_t length = 0;
    if (text[0] == '-' && at_end(text + 1))
        return 0;
    while (!at_end(text)) {
        if (*text == ' ') {
            text++;
            continue;
        }
        long count = read_piece(&text, bytes + length, room - length);
        if (count < 0)
            return -1;
        length += (size_t)count;
    }
    return (long)length;
}
