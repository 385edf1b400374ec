/* gpiosay: says statements to the broker that runs a command. */
#include <errno.h>
#include <stdbool.h>
#include <stdio.h>
#include <stdlib.h>
#include <string.h>
#include <unistd.h>

#include "../faults.h"
#include "../wire.h"
#include "say.h"

/* NO_BROKER and WAIT_FAILED end all; else the highest of several statements decides. */
enum status { DONE = 0, REFUSED = 1, NO_BROKER = 2, NO_STATEMENT = 3, WAIT_FAILED = 4 };

static const char help[] =
    "gpiosay [--folder FOLDER] [STATEMENT ..]\n"
    "\n"
    "Says each STATEMENT to the machine that gpioserve runs, and prints what it prints:\n"
    "  gpiosay \"write gpiochip0/sim_gpio3/pull pull-up\" \"read gpiochip0/sim_gpio4/value\"\n"
    "Without one, statements are read from standard input, a line each.\n"
    "\n"
    "  --folder FOLDER   the folder that gpioserve was given by --folder; else that of the variable GPIOSERVE, which\n"
    "                    the command has that gpioserve runs\n"
    "  -h, --help        prints this\n"
    "      --version     prints the version\n"
    "\n"
    "`reset` begins a new machine with the board, at once: see docs/SERVING.md.\n"
    "A STATEMENT may be a wait. It fails after its TIME, 30s where none is given, and leaves nothing in the\n"
    "transcript:\n"
    "  wait held CHIP LINE [by CONSUMER] [within TIME]   until a program holds the line; prints the consumer\n"
    "  wait released CHIP LINE [within TIME]             until no program holds it\n"
    "  wait level CHIP LINE LEVEL [within TIME]          until it has the level 0 or 1\n"
    "  wait read CHIP LINE [COUNT] [within TIME]         until so many of its events were read; prints how many\n"
    "  wait opened CHIP [COUNT] [within TIME]            until the chip was opened so often; prints how often\n"
    "\n"
    "Or it stands for several statements, or for one whose numbers gpioserve knows:\n"
    "  burst COUNT   each line whose edges a program awaits changes so many times\n"
    "  pass TIME     the manual clock goes on by TIME, as 10ms or 2s\n"
    "\n"
    "Status 0; 1 where the machine refused a statement, as by EBUSY; 2 where there is nobody to say it to; 3 where a\n"
    "STATEMENT is none, or none that can be said here; 4 where a wait failed, after which nothing more is said.\n"
    "docs/FORMATS.md lists the statements.\n";

/* Explains a line that was refused. */
static void explain(const char *statement, const char *text) {
    unsigned long row, column;
    char kind[16];
    if (sscanf(text, "refused %lu %lu %15s", &row, &column, kind) != 3) {
        fprintf(stderr, "gpiosay: %s", text);
        return;
    }
    fprintf(stderr, "gpiosay: column %lu: %s\n", column, faults_words(kind));
    if (column <= 500 && strlen(statement) <= 500)
        fprintf(stderr, "  %s\n  %*s^\n", statement, (int)column - 1, "");
}

/* Says a statement. What others printed comes before what is wrong with this one. */
static enum status say_one(struct say *say, const char *statement) {
    int error = say_statement(say, statement);
    fflush(stdout);
    if (error < 0) {
        fprintf(stderr, "gpiosay: gpioserve no longer answers\n");
        return NO_BROKER;
    }
    if (say->is_none) {
        explain(statement, say->text);
        return NO_STATEMENT;
    }
    if (error && say_waits(statement)) {
        fprintf(stderr, "gpiosay: %s: %s", statement, say->text);
        return WAIT_FAILED;
    }
    fwrite(say->text, 1, say->length, stdout);
    return error ? REFUSED : DONE;
}

static bool ends_all(enum status status) {
    return status == NO_BROKER || status == WAIT_FAILED;
}

/* The status of statements before, and of one more. */
static enum status worse(enum status before, enum status said) {
    return ends_all(said) || said > before ? said : before;
}

static enum status say_lines(struct say *say) {
    char *line = NULL;
    size_t room = 0;
    ssize_t length;
    enum status status = DONE;
    while (!ends_all(status) && (length = getline(&line, &room, stdin)) >= 0) {
        if (length > 0 && line[length - 1] == '\n')
            line[length - 1] = 0;
        status = worse(status, say_one(say, line));
        fflush(stdout);
    }
    free(line);
    return status;
}

static enum status say_all(struct say *say, int count, char **statements) {
    enum status status = DONE;
    for (int i = 0; i < count && !ends_all(status); i++)
        status = worse(status, say_one(say, statements[i]));
    return status;
}

int main(int count, char **arguments) {
    const char *folder = NULL;
    struct say say;
    int first = 1;
    if (count > 1 && (strcmp(arguments[1], "--help") == 0 || strcmp(arguments[1], "-h") == 0)) {
        fputs(help, stdout);
        return DONE;
    }
    if (count > 1 && strcmp(arguments[1], "--version") == 0) {
        puts("gpiosay " GPIOSERVE_VERSION);
        return DONE;
    }
    if (count > 2 && strcmp(arguments[1], "--folder") == 0) {
        folder = arguments[2];
        first = 3;
    } else if (count > 1 && strncmp(arguments[1], "--", 2) == 0) {
        fprintf(stderr, "gpiosay: %s is no option: gpiosay --help\n", arguments[1]);
        return NO_BROKER;
    }
    int error = say_open(&say, folder);
    if (error) {
        fprintf(stderr,
            "gpiosay: there is no gpioserve to say it to (%s): run it in a command of gpioserve, or name the folder by "
            "--folder\n",
            strerror(error));
        return NO_BROKER;
    }
    enum status status = first < count ? say_all(&say, count - first, arguments + first) : say_lines(&say);
    say_close(&say);
    if (fflush(stdout) && status == DONE)
        status = REFUSED;
    return status;
}
