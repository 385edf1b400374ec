#include "board.h"

#include <errno.h>
#include <fcntl.h>
#include <stdio.h>
#include <stdlib.h>
#include <string.h>
#include <unistd.h>

#include "../faults.h"
#include "report.h"
#include "room.h"
#include "statement.h"
#include "turn.h"

/* The file is read in pieces of at least so many bytes, and has at most so many. */
#define LEAST_READ 4096
#define MOST_LENGTH (64u << 20)

/* What to do about a line with a fault at `at`. */
static const char *remedy(const char *line, const char *at) {
    if (*at == '\r')
        return "the lines end with CR and LF: sed -i 's/\\r$//' FILE takes the CRs away";
    if (*at == '\t')
        return "it is a tab: write a blank in its place";
    if (*at & 0x80)
        return "it is no ASCII, as a dash, a quotation mark or a letter with an accent: write it in ASCII, in comments "
               "too";
    if (strpbrk(line, "\"'"))
        return "quotes mean nothing here: a word ends at a blank, and has no blanks";
    return "docs/FORMATS.md lists the statements; a board has those of a `setup`, as `probe LABEL N`, N from 1 to 512";
}

/* Shows a line, or the part of it round the fault, with a caret under the column. */
static void show_line(const char *line, size_t column) {
    size_t length = strlen(line), from = column > 60 ? column - 60 : 0;
    if (from >= length)
        return;
    fputs("  ", stderr);
    for (size_t i = from; i < length && i < from + 100; i++)
        fputc(line[i] >= ' ' && line[i] <= '~' ? line[i] : '?', stderr);
    fprintf(stderr, "\n  %*s^\n", (int)(column - from) - 1, "");
}

/* Reports a refused line. */
static void report_refusal(const struct machine *machine, const char *path, unsigned number, const char *line) {
    unsigned long row, column;
    char kind[16];
    if (sscanf(machine->text, "refused %lu %lu %15s", &row, &column, kind) != 3 || column == 0) {
        report("%s: line %u: %s", path, number, machine->text);
        return;
    }
    size_t length = strlen(line);
    report("%s: line %u, column %lu: %s", path, number, column, faults_words(kind));
    show_line(line, column);
    report("%s", remedy(line, line + (column <= length ? column - 1 : length)));
}

/* Whether a line is passed over. */
static bool is_blank(const char *line) {
    line += strspn(line, " ");
    return *line == 0 || *line == '#';
}

/* Whether a line has these two words, or one where `second` is NULL. */
static bool has_words(const char *line, const char *first, const char *second) {
    char words[3][16] = {"", "", ""};
    int count = sscanf(line, "%15s %15s %15s", words[0], words[1], words[2]);
    return count == (second ? 2 : 1) && strcmp(words[0], first) == 0 && (!second || strcmp(words[1], second) == 0);
}

/* Whether a line is the header of a session. */
static bool is_header(const char *line) {
    return has_words(line, "session", "1") || has_words(line, "session", "2") || has_words(line, "session", "3");
}

/* Says `session 3` and `setup`: programs name lines with any bytes. */
static bool begin(struct broker *broker) {
    machine_putf(&broker->machine, "session 3");
    machine_putf(&broker->machine, "setup");
    for (int i = 0; i < 2; i++) {
        if (!machine_take(&broker->machine))
            return false;
        if (broker->machine.refused) {
            report("the served program doesn't take `session 3`: is it gpioserved, and of this version?");
            return false;
        }
    }
    return true;
}

/* Hands in one line. */
static bool hand_in(struct broker *broker, const char *path, unsigned number, const char *line, size_t length) {
    struct statement statement;
    const char *refusal = statement_read(&statement, line, length, true);
    if (refusal) {
        report("%s: line %u: %.*s", path, number, (int)strcspn(refusal, "\n"), refusal);
        return false;
    }
    if (statement.pulls)
        waves_touch(&broker->waves, &broker->machine, broker->now, statement.chip, statement.offset);
    machine_put(&broker->machine, line, length, statement.kept);
    if (!machine_take(&broker->machine))
        return false;
    if (broker->machine.refused) {
        report_refusal(&broker->machine, path, number, line);
        return false;
    }
    if (machine_error(&broker->machine)) {
        report("%s: line %u: `%s` was answered %s", path, number, line, broker->machine.text);
        return false;
    }
    tree_note_statement(&broker->tree, line);
    if (statement.clock) {
        broker->now = statement.now;
        broker->real = statement.real;
    }
    return true;
}

/* Hands in all lines. The board's text stays as it is: each line is copied. */
static bool hand_in_all(struct broker *broker, const struct board *board) {
    char *line = NULL;
    size_t room = 0;
    unsigned number = 0, heads = 0; /* of the header and `setup`, how many stood there */
    bool good = true;
    for (size_t at = 0, length; good && at < board->length; at += length + 1) {
        const char *end = memchr(board->text + at, '\n', board->length - at);
        length = end ? (size_t)(end - board->text) - at : board->length - at;
        room_for(&line, &room, length + 1);
        memcpy(line, board->text + at, length);
        line[length] = 0;
        number++;
        if ((heads == 0 && is_header(line)) || (heads == 1 && has_words(line, "setup", NULL))) {
            heads++;
            continue;
        }
        if (!is_blank(line) && heads == 0)
            heads = 2;
        good = hand_in(broker, board->path, number, line, length);
    }
    free(line);
    return good;
}

/* Reads all of a file. False, with errno, where that fails. */
static bool read_all(struct board *board, int file) {
    size_t room = 0;
    ssize_t got;
    do {
        room_for(&board->text, &room, board->length + LEAST_READ);
        got = read(file, board->text + board->length, room - board->length - 1);
        board->length += got > 0 ? (size_t)got : 0;
        if (board->length > MOST_LENGTH) {
            errno = EFBIG;
            return false;
        }
    } while (got > 0 || (got < 0 && errno == EINTR));
    board->text[board->length] = 0;
    return got == 0;
}

bool board_read(struct board *board, const char *path) {
    *board = (struct board){.path = path};
    if (!path)
        return true;
    int file = open(path, O_RDONLY | O_CLOEXEC);
    bool good = file >= 0 && read_all(board, file);
    if (!good) {
        report("the board %s can't be read: %s", path, strerror(errno));
        report("a board is a file of statements, as `probe demo 4` for a chip with 4 lines; docs/FORMATS.md has more");
    }
    if (file >= 0)
        close(file);
    return good;
}

void board_free(struct board *board) {
    free(board->text);
    board->text = NULL;
}

bool board_hand_in(struct broker *broker, const struct board *board) {
    return begin(broker) && hand_in_all(broker, board) && turn_settle(broker, true);
}
