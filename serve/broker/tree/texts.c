#include "texts.h"

#include <ctype.h>
#include <errno.h>
#include <limits.h>
#include <stdio.h>
#include <stdlib.h>
#include <string.h>

/* White space, as the kernel knows it in ASCII. */
#define SPACE " \t\n\v\f\r"
/* What a value has that stands in a statement as it is. */
#define PLAIN "abcdefghijklmnopqrstuvwxyzABCDEFGHIJKLMNOPQRSTUVWXYZ0123456789_-."
/* The most digits of a number in a name: it fits an unsigned. */
#define MOST_DIGITS 9

bool texts_numbered(const char *text, const char *front, unsigned *number) {
    const char *digits = texts_after(text, front);
    if (!digits || *digits == 0 || (*digits == '0' && digits[1]))
        return false;
    size_t length = strlen(digits);
    if (length > MOST_DIGITS || strspn(digits, "0123456789") != length)
        return false;
    *number = (unsigned)strtoul(digits, NULL, 10);
    return true;
}

const char *texts_after(const char *text, const char *front) {
    size_t length = strlen(front);
    return strncmp(text, front, length) == 0 ? text + length : NULL;
}

int texts_read_bool(const char *text, bool *value) {
    char first = *text;
    if (first == 'o' || first == 'O')
        first = text[1] == 'n' || text[1] == 'N' ? '1' : text[1] == 'f' || text[1] == 'F' ? '0' : 0;
    if (first == 0 || !strchr("yYtT1nNfF0", first))
        return EINVAL;
    *value = strchr("yYtT1", first) != NULL;
    return 0;
}

int texts_read_unsigned(const char *text, unsigned *value) {
    if (*text == '+')
        text++;
    int base = *text != '0' ? 10 : (text[1] == 'x' || text[1] == 'X') && isxdigit((unsigned char)text[2]) ? 16 : 8;
    if (!isdigit((unsigned char)*text))
        return EINVAL;
    char *end;
    errno = 0;
    unsigned long number = strtoul(text, &end, base);
    if (errno == ERANGE)
        return ERANGE;
    if (*end == '\n')
        end++;
    if (*end != 0)
        return EINVAL;
    if (number > UINT_MAX)
        return ERANGE;
    *value = (unsigned)number;
    return 0;
}

bool texts_equal_line(const char *text, const char *word) {
    const char *rest = texts_after(text, word);
    return rest && (*rest == 0 || strcmp(rest, "\n") == 0);
}

char *texts_trim(char *text) {
    text += strspn(text, SPACE);
    size_t length = strlen(text);
    while (length > 0 && strchr(SPACE, text[length - 1]))
        text[--length] = 0;
    return text;
}

bool texts_write_word(char word[TEXTS_WORD], const char *value) {
    size_t length = strlen(value);
    if (length < 1 || length >= TEXTS_VALUE || strchr(value, '\n'))
        return false;
    if (value[strspn(value, PLAIN)] == 0) {
        memcpy(word, value, length + 1);
        return true;
    }
    word[0] = '\\';
    for (size_t i = 0; i < length; i++)
        snprintf(word + 1 + 2 * i, 3, "%02x", (unsigned char)value[i]);
    return true;
}

void texts_read_word(char value[TEXTS_VALUE], const char *word) {
    const char *digits = texts_after(word, "\\");
    size_t count = 0;
    unsigned byte = 0;
    while (
        digits && count < TEXTS_VALUE - 1 && isxdigit((unsigned char)digits[0]) && isxdigit((unsigned char)digits[1])) {
        sscanf(digits, "%2x", &byte);
        value[count++] = (char)byte;
        digits += 2;
    }
    if (count > 0)
        value[count] = 0;
    else
        snprintf(value, TEXTS_VALUE, "%s", word);
}
