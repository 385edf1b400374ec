#include "text.h"

#include <ctype.h>
#include <stdarg.h>
#include <stdio.h>
#include <stdlib.h>
#include <string.h>

enum { ZEROS_LEAST = 8 };

static void need_capacity(struct text *text, size_t more) {
    if (text->length + more < text->capacity)
        return;
    size_t wanted = 2 * (text->length + more) + 64;
    char *letters = realloc(text->letters, wanted);
    if (!letters) {
        fprintf(stderr, "probe: there is not enough memory\n");
        exit(3);
    }
    text->letters = letters;
    text->capacity = wanted;
}

void text_add(struct text *text, const char *format, ...) {
    va_list arguments;
    va_start(arguments, format);
    int length = vsnprintf(NULL, 0, format, arguments);
    va_end(arguments);
    if (length < 0)
        return;
    need_capacity(text, (size_t)length);
    va_start(arguments, format);
    vsnprintf(text->letters + text->length, (size_t)length + 1, format, arguments);
    va_end(arguments);
    text->length += (size_t)length;
}

void text_add_letters(struct text *text, const char *letters, size_t length) {
    for (size_t i = 0; i < length; i++) {
        unsigned char letter = (unsigned char)letters[i];
        if (letter == '\n')
            text_add(text, "\\n");
        else if (letter < 0x7f && letter != '\\' && isprint(letter))
            text_add(text, "%c", letter);
        else
            text_add(text, "\\x%02x", letter);
    }
}

static size_t zeros_at(const unsigned char *bytes, size_t length) {
    size_t count = 0;
    while (count < length && bytes[count] == 0)
        count++;
    return count;
}

void text_add_bytes(struct text *text, const unsigned char *bytes, size_t length) {
    const char *before = "";
    size_t at = 0;
    if (!length)
        text_add(text, "-");
    while (at < length) {
        size_t zeros = zeros_at(bytes + at, length - at);
        if (zeros >= ZEROS_LEAST) {
            text_add(text, "%s00*%zu", before, zeros);
            before = " ";
            at += zeros;
            continue;
        }
        text_add(text, "%s", at ? before : "");
        do {
            text_add(text, "%02x", bytes[at++]);
        } while (at < length && zeros_at(bytes + at, length - at) < ZEROS_LEAST);
        before = " ";
    }
}

void text_add_error(struct text *text, int error) {
    const char *name = error ? strerrorname_np(error) : "ok";
    if (name)
        text_add(text, "%s", name);
    else
        text_add(text, "E%d", error);
}

void text_clear(struct text *text) {
    text->length = 0;
    if (text->letters)
        text->letters[0] = '\0';
}

void text_free(struct text *text) {
    free(text->letters);
    *text = (struct text){0};
}
