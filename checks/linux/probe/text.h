/* A text that grows. Where there is no memory for it the program ends with status 3. */
#ifndef TEXT_H
#define TEXT_H

#include <stddef.h>

struct text {
    char *letters; /* ended by a zero, or NULL as long as nothing was added */
    size_t length, capacity;
};

void text_add(struct text *text, const char *format, ...) __attribute__((format(printf, 2, 3)));

/* Adds letters; those that cannot be printed, and backslashes, as \n or \xHH. */
void text_add_letters(struct text *text, const char *letters, size_t length);

/* Adds bytes in their one spelling: pairs of digits, and from eight zeros on `00*N`; `-` for none. */
void text_add_bytes(struct text *text, const unsigned char *bytes, size_t length);

/* Adds `ok` for 0, else the error's name. */
void text_add_error(struct text *text, int error);

void text_clear(struct text *text);
void text_free(struct text *text);

#endif
