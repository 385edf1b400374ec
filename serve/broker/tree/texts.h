/* Values as the gpio-sim driver reads them from what was written, and numbers in names. */
#ifndef TEXTS_H
#define TEXTS_H

#include <stdbool.h>

/* Whether a text is `front` and a decimal number without leading zeros behind it, of at most nine digits. */
bool texts_numbered(const char *text, const char *front, unsigned *number);

/* What follows `front` in a text; NULL where it doesn't begin so. */
const char *texts_after(const char *text, const char *front);

/* Reads a truth value as the kernel's kstrtobool: by its first letter, or the second behind an `o`. 0 or EINVAL. */
int texts_read_bool(const char *text, bool *value);

/* Reads a number as the kernel's kstrtouint with base 0: decimal, `0x` and hexadecimal, or `0` and octal, with one line
 * end at most. 0; EINVAL; or ERANGE for one that is too large. */
int texts_read_unsigned(const char *text, unsigned *value);

/* Whether a text is a word, with one line end at most, as the kernel's sysfs_streq compares. */
bool texts_equal_line(const char *text, const char *word);

/* Takes white space off both ends, in place, as the kernel's strstrip. The text begins at what is returned. */
char *texts_trim(char *text);

/* The longest word of a value in a statement, with its zero: `\` and 31 pairs of hexadecimal digits. */
#define TEXTS_WORD 64
/* The longest value, with its zero. */
#define TEXTS_VALUE 32

/* Writes the word of a statement that says a value of 1 to 31 bytes: the value as it is where it has letters, digits,
 * `_`, `-` and `.` alone, else `\` and its bytes in pairs. False where it is no such value, or has a line end, since
 * the lists of chips are read line by line. */
bool texts_write_word(char word[TEXTS_WORD], const char *value);

/* Reads the value that such a word says. A word that says none is left as it is, as far as it fits. */
void texts_read_word(char value[TEXTS_VALUE], const char *word);

#endif
