#include "machine.h"

#include <errno.h>
#include <fcntl.h>
#include <stdarg.h>
#include <stdint.h>
#include <stdio.h>
#include <stdlib.h>
#include <string.h>
#include <sys/wait.h>
#include <unistd.h>

#include "process.h"
#include "report.h"
#include "room.h"

/* The longest answer that is taken. */
#define MOST_TEXT (64u << 20)
/* The longest head of an answer. */
#define MOST_HEAD 32
/* Output is read in pieces of at least so many bytes. */
#define LEAST_READ 4096

/* Reading and writing a file never waits from now on. */
static int set_nonblocking(int file) {
    return fcntl(file, F_SETFL, O_NONBLOCK) ? errno : 0;
}

bool machine_start(
    struct machine *machine, char *const *words, struct record *record, const struct patience *patience) {
    int in[2], out[2], error;
    memset(machine, 0, sizeof *machine);
    machine->record = record;
    machine->patience = patience;
    machine->heeded = patience->signals->received;
    if (!process_pipes(in, out)) {
        report("no pipe for the served program: %s", strerror(errno));
        return false;
    }
    error = set_nonblocking(in[1]);
    if (error == 0)
        error = set_nonblocking(out[0]);
    if (error == 0)
        error = process_start(&machine->pid, words, in[0], out[1], NULL);
    close(in[0]);
    close(out[1]);
    machine->to = in[1];
    machine->from = out[0];
    if (error == 0)
        return true;
    report("the served program %s can't be started: %s", words[0], strerror(error));
    close(machine->to);
    close(machine->from);
    return false;
}

void machine_put(struct machine *machine, const char *line, size_t length, bool kept) {
    if (machine->taken == machine->put)
        machine->put = machine->taken = machine->lines_length = machine->lines_sent = 0;
    if (machine->put == MACHINE_WAITING)
        abort();
    room_for(&machine->lines, &machine->lines_room, machine->lines_length + length + 1);
    machine->unanswered[machine->put++] = (struct machine_line){machine->lines_length, length, kept};
    memcpy(machine->lines + machine->lines_length, line, length);
    machine->lines_length += length;
    machine->lines[machine->lines_length++] = '\n';
}

void machine_putf(struct machine *machine, const char *form, ...) {
    char line[512];
    va_list values;
    va_start(values, form);
    int length = vsnprintf(line, sizeof line, form, values);
    va_end(values);
    if (length < 0 || (size_t)length >= sizeof line)
        abort();
    machine_put(machine, line, (size_t)length, true);
}

static bool end_of(struct machine *machine) {
    machine->ended = true;
    machine->refused = false;
    machine->length = 0;
    return false;
}

/* Reads what is there of the program's output, for which it takes memory that machine_end frees. Whether something was
 * there; where the output is at its end, the program has ended. */
static bool read_some(struct machine *machine) {
    if (machine->input_at == machine->input_length)
        machine->input_at = machine->input_length = 0;
    room_for(&machine->input, &machine->input_room, machine->input_length + LEAST_READ);
    ssize_t got =
        read(machine->from, machine->input + machine->input_length, machine->input_room - machine->input_length);
    if (got > 0)
        machine->input_length += (size_t)got;
    else if (got == 0 || (errno != EAGAIN && errno != EINTR))
        end_of(machine);
    return got > 0;
}

/* Waits for output, or with `sends` until the program takes more of its input too. False where the program has ended,
 * or the time has. */
static bool wait_for(struct machine *machine, bool sends) {
    const struct pollfd files[] = {{.fd = machine->from, .events = POLLIN}, {.fd = machine->to, .events = POLLOUT}};
    machine->hung = patience_wait(machine->patience, files, sends ? 2 : 1, &machine->heeded);
    return machine->hung == PATIENCE_READY || end_of(machine);
}

static bool read_more(struct machine *machine) {
    while (!machine->ended)
        if (!wait_for(machine, false) || read_some(machine))
            break;
    return !machine->ended;
}

/* Sends the lines that were put. A program that takes no more of them may have to be rid of its answers first. */
static bool send_lines(struct machine *machine) {
    while (machine->lines_sent < machine->lines_length) {
        const char *rest = machine->lines + machine->lines_sent;
        ssize_t sent = write(machine->to, rest, machine->lines_length - machine->lines_sent);
        if (sent >= 0) {
            machine->lines_sent += (size_t)sent;
            continue;
        }
        if (errno != EAGAIN && errno != EINTR)
            return end_of(machine);
        if (!wait_for(machine, true))
            return false;
        read_some(machine);
        if (machine->ended)
            return false;
    }
    return true;
}

/* The end of a head in what was read, or NULL where it isn't whole yet. */
static char *head_end(const struct machine *machine) {
    size_t length = machine->input_length - machine->input_at;
    return length > 0 ? memchr(machine->input + machine->input_at, '\n', length) : NULL;
}

/* Reads a head, `= N` or `! N`, and takes it out. The text's length, or -1. */
static long take_head(struct machine *machine) {
    char *end;
    while (!(end = head_end(machine)))
        if (machine->input_length - machine->input_at > MOST_HEAD || !read_more(machine))
            return -1;
    const char *head = machine->input + machine->input_at;
    char sign = head[0];
    if ((sign != '=' && sign != '!') || head[1] != ' ' || head[2] < '0' || head[2] > '9')
        return -1;
    *end = 0;
    unsigned long length = strtoul(head + 2, &end, 10);
    if (*end != 0 || length > MOST_TEXT)
        return -1;
    machine->refused = sign == '!';
    machine->input_at = (size_t)(end - machine->input) + 1;
    return (long)length;
}

static bool take_text(struct machine *machine, size_t length) {
    while (machine->input_length - machine->input_at < length)
        if (!read_more(machine))
            return false;
    room_for(&machine->text, &machine->text_room, length + 1);
    memcpy(machine->text, machine->input + machine->input_at, length);
    machine->text[length] = 0;
    machine->length = length;
    machine->input_at += length;
    return true;
}

bool machine_take(struct machine *machine) {
    const struct machine_line *line = &machine->unanswered[machine->taken];
    if (machine->ended || machine->taken == machine->put)
        return end_of(machine);
    machine->taken++;
    if (!send_lines(machine))
        return false;
    long length = take_head(machine);
    if (length < 0 || !take_text(machine, (size_t)length)) {
        machine->garbled = !machine->ended;
        return end_of(machine);
    }
    if (line->kept && !machine->refused) {
        record_line(machine->record, machine->lines + line->at, line->length);
        record_text(machine->record, machine->text, machine->length);
    }
    return true;
}

static const struct {
    const char *name;
    int number;
} errors[] = {
    {"EPERM", EPERM},
    {"ENOENT", ENOENT},
    {"EIO", EIO},
    {"ENXIO", ENXIO},
    {"EBADF", EBADF},
    {"EAGAIN", EAGAIN},
    {"ENOMEM", ENOMEM},
    {"EFAULT", EFAULT},
    {"EBUSY", EBUSY},
    {"EEXIST", EEXIST},
    {"ENODEV", ENODEV},
    {"EINVAL", EINVAL},
    {"EMFILE", EMFILE},
    {"ENOSPC", ENOSPC},
    {"EOPNOTSUPP", EOPNOTSUPP},
};

const char *machine_error_name(int error) {
    for (size_t i = 0; i < sizeof errors / sizeof *errors; i++)
        if (errors[i].number == error)
            return errors[i].name;
    return "?";
}

/* The number of the error whose name is this line of so many bytes, its end included; 0 where it is none. */
static int error_named(const char *line, size_t length) {
    for (size_t i = 0; i < sizeof errors / sizeof *errors; i++)
        if (length == strlen(errors[i].name) + 1 && memcmp(line, errors[i].name, length - 1) == 0)
            return errors[i].number;
    return 0;
}

int machine_error(const struct machine *machine) {
    if (machine->ended)
        return ENODEV;
    return machine->refused ? EINVAL : error_named(machine->text, machine->length);
}

int machine_error_of_statement(const struct machine *machine) {
    static const char tools[] = "gpio", divider[] = ": ", usage[] = "usage\n";
    int error = machine_error(machine);
    if (error || strncmp(machine->text, tools, strlen(tools)) != 0)
        return error;
    const char *rest = strstr(machine->text, divider);
    if (!rest)
        return 0;
    rest += strlen(divider);
    size_t length = machine->length - (size_t)(rest - machine->text);
    return length == strlen(usage) && memcmp(rest, usage, length) == 0 ? EINVAL : error_named(rest, length);
}

int machine_end(struct machine *machine) {
    close(machine->to);
    int status = process_wait(machine->pid, machine->hung == PATIENCE_READY);
    close(machine->from);
    free(machine->lines);
    free(machine->input);
    free(machine->text);
    return status;
}
