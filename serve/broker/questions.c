#include "questions.h"

#include <errno.h>
#include <inttypes.h>
#include <stdio.h>
#include <stdlib.h>
#include <string.h>
#include <unistd.h>

#include "items.h"
#include "notify/flow.h"
#include "outside.h"
#include "pieces.h"
#include "touch.h"
#include "turn.h"

/* The most bytes that a statement gives to a command, and that `events` and `changes` read. */
#define MOST_BYTES 1024
#define MOST_EVENTS QUESTIONS_READ_MOST
#define MOST_CHANGES 9216
#define MOST_EVENTS1 16384

static void reply_error(struct client *client, int error) {
    struct answer answer = {.error = error};
    clients_reply(client, &answer, NULL, -1);
}

/* Makes a file whose end is waited for; `*reader` is the caller's to close. NULL, with errno, where that can't be. */
static struct file *make_file(struct broker *broker, enum file_kind kind, unsigned chip, int *reader) {
    struct file *file = files_make(&broker->files, kind, chip, reader);
    if (file)
        file->asker = broker->record.asker;
    if (!file ||
        ((!broker->notify || flow_prepare(file, broker->packet.data)) && watch_by(broker->ends, &file->watch, 0)))
        return file;
    int error = errno;
    close(*reader);
    files_drop(&broker->files, file);
    errno = error;
    return NULL;
}

static bool answer_open(struct broker *broker, struct client *client) {
    unsigned chip = broker->packet.question.command;
    char line[64];
    int reader;
    if (chip >= WIRE_CHIPS) {
        reply_error(client, ENOENT);
        return true;
    }
    if (!renewal_before_statement(broker))
        return false;
    struct file *file = make_file(broker, FILE_CHIP, chip, &reader);
    if (!file) {
        reply_error(client, errno);
        return true;
    }
    int length = snprintf(line, sizeof line, "open %s %u", file->name, chip);
    bool alive = turn_say(broker, line, (size_t)length, true);
    struct answer answer = {.error = machine_error(&broker->machine), .chip = chip + 1};
    if (answer.error)
        files_drop(&broker->files, file);
    else
        broker->counts.opened[chip]++;
    alive = alive && turn_settle(broker, false);
    clients_reply(client, &answer, NULL, answer.error ? -1 : reader);
    close(reader);
    return alive;
}

/* Whether the statement of a command that this file doesn't have needs a name for a new file, as the number is that of
 * one that makes files. */
static bool wants_name(enum file_kind kind, uint32_t number, bool version1) {
    const struct uapi_command *command = kind == FILE_CHIP ? NULL : uapi_find(FILE_CHIP, number);
    return command && command->effect == UAPI_REQUESTS && command->version1 == version1;
}

/* Writes the statement of a command with its bytes; how long it is. */
static size_t write_ioctl(char *line, const struct file *file, const struct uapi_command *command,
    const struct packet *packet, const struct file *made) {
    bool version1 = file->kind == FILE_HANDLE1 || file->kind == FILE_EVENT1 || (command && command->version1);
    size_t count = packet->question.length < MOST_BYTES ? packet->question.length : MOST_BYTES;
    size_t length = (size_t)sprintf(line, "%s %s ", version1 ? "ioctl1" : "ioctl", file->name);
    if (command)
        length += (size_t)sprintf(line + length, "%s ", command->word);
    else
        length += (size_t)sprintf(line + length, "0x%08" PRIx32 " ", packet->question.command);
    length += pieces_write(line + length, packet->data, count);
    if (made || wants_name(file->kind, packet->question.command, version1))
        length += (size_t)sprintf(line + length, " as %s", made ? made->name : "none");
    return length;
}

/* Before a command is said: marks the lines whose level or holder it may change, and what it can bring about. */
static void expect(struct broker *broker, const struct file *file, const struct uapi_command *command) {
    const struct packet *packet = &broker->packet;
    uint32_t asked[UAPI_LINES];
    size_t count = file->line_count;
    const uint32_t *lines = file->lines;
    if (packet->question.length < command->length)
        return;
    if (command->effect == UAPI_REQUESTS) {
        count = uapi_lines(command, packet->data, asked);
        lines = asked;
    } else if (command->effect != UAPI_SETS && command->effect != UAPI_CHANGES) {
        return;
    }
    for (size_t i = 0; i < count; i++)
        turn_changes(broker, file->chip, lines[i]);
    if (command->effect != UAPI_SETS)
        turn_requests(broker, file->chip, lines, count);
}

/* Where a request of lines has its configuration, and the information on a line its number. */
#define CONFIG_AT 288
#define INFO_LINE_AT 64

/* What comes to be read from a file of that configuration on. */
static void take_config(struct file *file, const unsigned char *config) {
    file->awaits = file->awaits || uapi_wants_edges(config);
    file->debounces = file->debounces || uapi_wants_debounce(config);
}

/* Keeps what a command that was done has changed of its files. */
static void take_effect(
    struct file *file, struct file *made, const struct uapi_command *command, const struct packet *packet) {
    switch (command->effect) {
    case UAPI_WATCHES:
        file->awaits = true;
        file->version = command->version1 ? 1 : 2;
        files_watch(file, uapi_u32(packet->data, command->version1 ? 0 : INFO_LINE_AT), true);
        break;
    case UAPI_UNWATCHES:
        files_watch(file, uapi_u32(packet->data, 0), false);
        break;
    case UAPI_REQUESTS:
        made->line_count = uapi_lines(command, packet->data, made->lines);
        consumer_write(made->consumer, packet->data + command->consumer_at);
        made->awaits = made->kind == FILE_EVENT1;
        if (made->kind == FILE_LINES)
            take_config(made, packet->data + CONFIG_AT);
        break;
    case UAPI_CHANGES:
        if (file->kind == FILE_LINES)
            take_config(file, packet->data);
        break;
    default:
        break;
    }
}

/* Answers a command that the machine has answered. A file that it should have made is freed where it wasn't done;
 * `reader`, of which the client gets a copy, stays the caller's. */
static bool finish_ioctl(struct broker *broker, struct client *client, struct file *file, struct file *made, int reader,
    const struct uapi_command *command) {
    unsigned char bytes[MOST_BYTES];
    struct answer answer = {.error = machine_error(&broker->machine)};
    bool done = answer.error == 0 && command && broker->packet.question.length >= command->length;
    if (done && command->gives) {
        if (pieces_read(broker->machine.text, bytes, command->length) == (long)command->length)
            answer.length = (uint32_t)command->length;
        else
            answer.error = EIO;
    }
    if (done)
        take_effect(file, made, command, &broker->packet);
    if (made && done)
        answer.fd_at = command->fd_at;
    else if (made)
        files_drop(&broker->files, made);
    bool alive = turn_settle(broker, false);
    clients_reply(client, &answer, bytes, made && done ? reader : -1);
    return alive;
}

/* Says a statement by itself. The error's number, ENODEV where the served program has ended. */
static int say_alone(struct broker *broker, const char *line, size_t length) {
    if (!turn_say(broker, line, length, true))
        return ENODEV;
    int error = machine_error(&broker->machine);
    return turn_settle(broker, false) ? error : ENODEV;
}

/* The number of the command that a watch of version 2 is without the watch. */
#define GET_LINEINFO 0xc100b405

/* Before a line is watched: what stands in the way, as the error's number, or 0. A file has the version of the uAPI of
 * its first watch, and the other one's is EPERM where nothing else is wrong with it. The machine has the watch of
 * version 2 alone, which stands here for that of version 1. */
static int begin_watch(struct broker *broker, struct file *file, const struct uapi_command *command) {
    char line[PIECES_ROOM(MOST_BYTES) + 128];
    const unsigned char *at = broker->packet.data;
    bool other = file->version != 0 && file->version != (command->version1 ? 1u : 2u);
    if (other) {
        const struct uapi_command *look = command->version1 ? command : uapi_find(FILE_CHIP, GET_LINEINFO);
        int error = say_alone(broker, line, write_ioctl(line, file, look, &broker->packet, NULL));
        return error ? error : EPERM;
    }
    if (!command->version1)
        return 0;
    int length = snprintf(
        line, sizeof line, "ioctl %s WATCH 00*64 %02x%02x%02x%02x 00*188", file->name, at[0], at[1], at[2], at[3]);
    return say_alone(broker, line, (size_t)length);
}

static bool answer_ioctl(struct broker *broker, struct client *client, struct file *file) {
    char line[PIECES_ROOM(MOST_BYTES) + 128];
    const struct uapi_command *command = uapi_find(file->kind, broker->packet.question.command);
    struct file *made = NULL;
    int reader = -1;
    if (command && command->effect == UAPI_REQUESTS) {
        made = make_file(broker, command->makes, file->chip, &reader);
        if (!made) {
            reply_error(client, errno);
            return true;
        }
    }
    if (command)
        expect(broker, file, command);
    if (command && command->effect == UAPI_WATCHES && broker->packet.question.length >= command->length) {
        int error = begin_watch(broker, file, command);
        if (error) {
            reply_error(client, error);
            return !broker->machine.ended;
        }
    }
    size_t length = write_ioctl(line, file, command, &broker->packet, made);
    bool alive = turn_say(broker, line, length, true) && finish_ioctl(broker, client, file, made, reader, command);
    if (reader >= 0)
        close(reader);
    return alive;
}

/* The most bytes of a file's reads, as a session has them. */
static uint32_t most_of_read(enum file_kind kind) {
    switch (kind) {
    case FILE_CHIP:
        return MOST_CHANGES;
    case FILE_LINES:
        return MOST_EVENTS;
    default:
        return MOST_EVENTS1;
    }
}

/* Keeps a `data` that was said as the `events` or `changes` that it stands for, and what those print. */
static void record_data(struct broker *broker, const struct file *file, const char *line, size_t length, bool read,
    const unsigned char *bytes, size_t count) {
    FILE *answers = broker->record.answers.file;
    record_line(&broker->record, line, length);
    if (!read)
        record_text(&broker->record, broker->machine.text, broker->machine.length);
    else if (answers && file->kind == FILE_CHIP)
        items_print_changes(answers, bytes, count);
    else if (answers)
        items_print_events(answers, bytes, count);
}

/* How a read is said: with the clock before it, or at the time at which that stands. */
typedef bool say_line(struct broker *broker, const char *line, size_t length, bool kept);

/* Reads by `data`, which gives the bytes. The error's number, or 0 and how many there are. */
static int read_data(struct broker *broker, say_line *say, const struct file *file, uint32_t room, unsigned char *bytes,
    uint32_t *count) {
    char line[64], kept[64];
    int length = snprintf(line, sizeof line, "data %s %" PRIu32, file->name, room);
    const char *word = file->kind == FILE_CHIP ? "changes" : "events";
    int kept_length = snprintf(kept, sizeof kept, "%s %s %" PRIu32, word, file->name, room);
    if (!say(broker, line, (size_t)length, false))
        return ENODEV;
    int error = machine_error(&broker->machine);
    long got = error ? 0 : pieces_read(broker->machine.text, bytes, room);
    if (!broker->machine.refused)
        record_data(broker, file, kept, (size_t)kept_length, error == 0, bytes, got > 0 ? (size_t)got : 0);
    *count = got > 0 ? (uint32_t)got : 0;
    return got < 0 ? EIO : error;
}

/* Reads events of version 1, which have no `data`. */
static int read_events1(struct broker *broker, say_line *say, const struct file *file, uint32_t room,
    unsigned char *bytes, uint32_t *count) {
    char line[64];
    int length = snprintf(line, sizeof line, "events1 %s %" PRIu32, file->name, room);
    if (!say(broker, line, (size_t)length, true))
        return ENODEV;
    int error = machine_error(&broker->machine);
    *count = error ? 0 : (uint32_t)items_read_events1(broker->machine.text, bytes, room);
    return error;
}

/* Counts the events of a file that were read, so many bytes of them, by their lines. */
static void count_events(struct broker *broker, const struct file *file, const unsigned char *bytes, uint32_t length) {
    if (file->kind == FILE_LINES)
        for (uint32_t at = 0; at + UAPI_EVENT <= length; at += UAPI_EVENT)
            waits_count_read(broker, file->chip, uapi_u32(bytes + at, 12));
    else if (file->kind == FILE_EVENT1)
        for (uint32_t at = 0; at + UAPI_EVENT1 <= length; at += UAPI_EVENT1)
            waits_count_read(broker, file->chip, file->lines[0]);
}

/* Reads what the machine has for a file. The error's number, or 0 and how many bytes there are. */
static int read_file(struct broker *broker, say_line *say, const struct file *file, uint32_t room, unsigned char *bytes,
    uint32_t *count) {
    uint32_t most = most_of_read(file->kind);
    if (room > most)
        room = most;
    if (file->kind == FILE_CHIP || file->kind == FILE_LINES)
        return read_data(broker, say, file, room, bytes, count);
    return read_events1(broker, say, file, room, bytes, count);
}

int questions_read(
    struct broker *broker, const struct file *file, uint32_t room, unsigned char *bytes, uint32_t *count) {
    return read_file(broker, turn_say_at_once, file, room, bytes, count);
}

/* Answers a read out of the file's pipe, to which what comes is moved at once. */
static bool answer_read_of_pipe(struct broker *broker, struct client *client, struct file *file) {
    static unsigned char bytes[MOST_EVENTS];
    struct answer answer = {0};
    uint32_t room = broker->packet.question.command;
    answer.error = flow_read(broker, file, room < sizeof bytes ? room : sizeof bytes, bytes, &answer.length);
    clients_reply(client, &answer, bytes, -1);
    return true;
}

static bool answer_read(struct broker *broker, struct client *client, struct file *file) {
    static unsigned char bytes[MOST_EVENTS];
    struct answer answer = {0};
    uint32_t room = broker->packet.question.command;
    bool is_version1 = file->kind == FILE_CHIP && file->version == 1;
    if (is_version1)
        room = (uint32_t)items_room_for_changes1(room < WIRE_DATA ? room : WIRE_DATA);
    touch_read(&broker->files, file);
    answer.error = read_file(broker, turn_say, file, room, bytes, &answer.length);
    count_events(broker, file, bytes, answer.length);
    if (is_version1)
        answer.length = (uint32_t)items_make_changes1(bytes, answer.length);
    bool alive = !broker->machine.ended;
    alive = alive && turn_settle(broker, false);
    clients_reply(client, &answer, bytes, -1);
    return alive;
}

/* Begins a new machine, which is no statement of any session. */
static bool answer_reset(struct broker *broker, struct client *client) {
    bool alive = renewal_begin(broker);
    reply_error(client, alive ? 0 : ENODEV);
    return alive;
}

static bool answer_say(struct broker *broker, struct client *client) {
    struct said said;
    const char *line = (const char *)broker->packet.data;
    size_t length = broker->packet.question.length;
    if (wait_is(line) && strlen(line) == length)
        return waits_begin(broker, client, line);
    if (strcmp(line, "reset") == 0 && strlen(line) == length)
        return answer_reset(broker, client);
    if (!renewal_before_statement(broker))
        return false;
    if (!outside_say(broker, line, length, &said)) {
        said_free(&said);
        return false;
    }
    struct answer answer = {.found = said.is_none ? -1 : 0, .error = said.error, .length = (uint32_t)said.length};
    bool alive = renewal_look(broker);
    if (said.text)
        clients_reply(client, &answer, said.text, -1);
    else
        reply_error(client, ENOMEM);
    said_free(&said);
    return alive;
}

/* Answers a question about a file. */
static bool answer_for_file(struct broker *broker, struct client *client) {
    const struct question *question = &broker->packet.question;
    struct file *file = files_find(&broker->files, question->ino);
    struct answer answer = {0};
    if (!file) {
        answer.found = -1;
    } else if (question->op == WIRE_WHOSE) {
        answer.chip = file->kind == FILE_CHIP ? file->chip + 1 : 0;
    } else if (files_is_gone(file)) {
        answer.error = ENODEV;
    } else if (question->op == WIRE_IOCTL) {
        return answer_ioctl(broker, client, file);
    } else {
        return broker->notify ? answer_read_of_pipe(broker, client, file) : answer_read(broker, client, file);
    }
    clients_reply(client, &answer, NULL, -1);
    return true;
}

/* Answers by the question's operation. */
static bool answer(struct broker *broker, struct client *client) {
    switch (broker->packet.question.op) {
    case WIRE_OPEN:
        return answer_open(broker, client);
    case WIRE_IOCTL:
    case WIRE_READ:
    case WIRE_WHOSE:
        return answer_for_file(broker, client);
    case WIRE_SAY:
        return answer_say(broker, client);
    case WIRE_TREE:
        reply_error(client, show_begin(broker, broker->packet.question.command) ? 0 : ENOENT);
        return true;
    default:
        reply_error(client, EINVAL);
        return true;
    }
}

bool questions_answer(struct broker *broker, struct client *client) {
    broker->record.asker = client->asker;
    return calls_begin(broker) && answer(broker, client) && calls_end(broker, client->error);
}
