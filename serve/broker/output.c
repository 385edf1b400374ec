#include "output.h"

#include <errno.h>
#include <fcntl.h>
#include <string.h>
#include <unistd.h>

#include "report.h"

/* Nothing is written from now on. */
static void give_up(struct output *output, int error) {
    output->error = error;
    if (error == ETIMEDOUT)
        report("nobody reads %s: from here on it isn't written", output->path);
    else
        report("%s can't be written from here on: %s", output->path, strerror(error));
}

/* Waits until there is room for bytes again. 0, or the error's number. */
static int wait_for_room(struct output *output) {
    const struct pollfd room = {.fd = output->number, .events = POLLOUT};
    return patience_wait(output->patience, &room, 1, &output->heeded) == PATIENCE_READY ? 0 : ETIMEDOUT;
}

/* Writes some of the bytes, once there is room for them. How many; or 0, when nothing is written any more. */
static size_t write_some(struct output *output, const char *bytes, size_t length) {
    while (output->error == 0) {
        ssize_t written = write(output->number, bytes, length);
        int error = written < 0 ? errno : ENOSPC;
        if (written > 0) {
            output->heeded = output->patience->signals->received;
            return (size_t)written;
        }
        if (error == EAGAIN)
            error = wait_for_room(output);
        if (error != 0 && error != EINTR)
            give_up(output, error);
    }
    return 0;
}

/* What the stream calls to write: 0 says that it failed. */
static ssize_t write_all(void *cookie, const char *bytes, size_t length) {
    struct output *output = cookie;
    size_t done = 0;
    while (done < length && output->error == 0)
        done += write_some(output, bytes + done, length - done);
    return (ssize_t)done;
}

/* What the stream calls to close. */
static int close_number(void *cookie) {
    struct output *output = cookie;
    if (close(output->number) == 0)
        return 0;
    if (output->error == 0)
        give_up(output, errno);
    return -1;
}

bool output_open(struct output *output, const char *path, const struct patience *patience) {
    const cookie_io_functions_t calls = {.write = write_all, .close = close_number};
    *output = (struct output){.path = path, .patience = patience, .number = -1};
    if (!path)
        return true;
    output->number = open(path, O_WRONLY | O_CREAT | O_TRUNC | O_CLOEXEC, 0666);
    if (output->number >= 0 && fcntl(output->number, F_SETFL, O_NONBLOCK) == 0)
        output->file = fopencookie(output, "w", calls);
    if (output->file)
        return true;
    report("%s can't be written: %s", path, strerror(errno));
    if (output->number >= 0)
        close(output->number);
    return false;
}

void output_flush(struct output *output) {
    if (output->file)
        fflush(output->file);
}

bool output_close(struct output *output) {
    FILE *file = output->file;
    output->file = NULL;
    return !file || (fclose(file) == 0 && output->error == 0);
}
