#include "tree.h"

#include <errno.h>
#include <fcntl.h>
#include <sys/stat.h>
#include <unistd.h>

enum { VALUE_MOST = 8192 };

int tree_mkdir(const char *path) {
    return mkdir(path, 0755) ? errno : 0;
}

int tree_rmdir(const char *path) {
    return rmdir(path) ? errno : 0;
}

/* The value that a text with backslashes stands for, cut at VALUE_MOST bytes. */
static size_t value_of(const char *text, char *value) {
    size_t length = 0;
    for (; *text && length < VALUE_MOST; text++) {
        if (text[0] == '\\' && (text[1] == 'n' || text[1] == '\\'))
            value[length++] = *++text == 'n' ? '\n' : '\\';
        else
            value[length++] = *text;
    }
    return length;
}

int tree_write(const char *path, const char *text) {
    char value[VALUE_MOST];
    size_t length = value_of(text, value);
    int descriptor = open(path, O_WRONLY | O_CLOEXEC);
    if (descriptor < 0)
        return errno;
    int error = write(descriptor, value, length) < 0 ? errno : 0;
    close(descriptor);
    return error;
}

int tree_read(const char *path, struct text *text) {
    char value[VALUE_MOST];
    int descriptor = open(path, O_RDONLY | O_CLOEXEC);
    if (descriptor < 0)
        return errno;
    ssize_t length = read(descriptor, value, sizeof value);
    int error = length < 0 ? errno : 0;
    close(descriptor);
    if (length > 0 && value[length - 1] == '\n')
        length--;
    if (length > 0)
        text_add_letters(text, value, (size_t)length);
    return error;
}
