#include "options.h"

#include <getopt.h>
#include <stdio.h>
#include <stdlib.h>
#include <string.h>

#include "report.h"

/* Seconds in which the served program has to answer, where no others are named; and the digits of a number of them. */
#define LIMIT 60
#define MOST_DIGITS 6

static const char help[] =
    "gpioserve [OPTIONS] -- COMMAND [ARGUMENT ..]\n"
    "gpioserve [OPTIONS] --env\n"
    "\n"
    "Runs COMMAND so that it, and what it starts, finds simulated GPIO chips at /dev/gpiochip0 and on.\n"
    "\n"
    "  -b, --board FILE        statements that describe the chips, as in a session's setup:\n"
    "                          `probe demo 4` makes a chip with 4 lines\n"
    "  -t, --transcript FILE   gets each statement that was accepted: a session, which gpiosess runs again\n"
    "  -a, --answers FILE      gets all that the statements printed: what gpiosess prints for that session\n"
    "  -w, --waves FILE        gets the lines' levels over time, as a value change dump\n"
    "      --clock manual      time passes by `gpiosay \"clock MONOTONIC REAL\"` alone (system: as it does)\n"
    "      --daemons           serves on after COMMAND, until the daemons that it left have ended as well\n"
    "      --each              begins a new machine, and a session of its own, whenever all chips and devices have "
    "gone:\n"
    "                          the next chip is gpiochip0 again, and FILE.2, FILE.3 .. get what FILE got before\n"
    "      --at CALL STATEMENT     says the statement before the programs' call of that number: 12, or 12+ before "
    "each\n"
    "                          from the 12th on, or 12:500ms half a second later\n"
    "      --after CALL STATEMENT  the same, once the call is answered\n"
    "      --at-fault N        the N-th call of the driver fails with EIO; N+ from the N-th on\n"
    "      --calls FILE        gets a line for each call: its number, the driver's, who made it, what came of it\n"
    "      --env               runs no command: prints the variables that a program needs to find the chips, a line\n"
    "                          each, then an empty line, and serves until its standard input ends\n"
    "      --way WAY           how calls come here: `library`, which is preloaded; or `notify`, by the kernel, for "
    "any\n"
    "                          program. Without, the library where it can be preloaded into COMMAND, else the kernel\n"
    "      --exact             by the kernel: each read and fstat too, which costs time and gives all errors\n"
    "      --folder FOLDER     the folder of the socket and of the names; a new one in TMPDIR where none is given\n"
    "      --answer-timeout SECONDS\n"
    "                          how long an answer of the served program, or a reader of FILE, is waited for (60);\n"
    "                          0 is without end\n"
    "      --served PROGRAM    the served program; else that of the variable GPIOSERVED, else `gpioserved` beside\n"
    "                          gpioserve. In the repository ./gpioserve at the top makes one\n"
    "      --sys               shows gpio-sim's file system at /sys to every program, also to those that no library "
    "can be\n"
    "                          loaded into, in a name space of the command's own\n"
    "  -h, --help              prints this\n"
    "      --version           prints the version, and whether the served program is proved\n"
    "\n"
    "The status is the command's, 128 and the number of the signal that ended it; 124: the served program ended\n"
    "before the command, or hung; 125: gpioserve couldn't begin; 126: the command can't be run; 127: there is none.\n"
    "While it runs, `gpiosay STATEMENT` moves the outside world: `gpiosay \"write gpiochip0/sim_gpio3/pull "
    "pull-up\"`.\n";

static bool take_clock(struct options *options, const char *word) {
    options->manual = strcmp(word, "manual") == 0;
    if (options->manual || strcmp(word, "system") == 0)
        return true;
    report("--clock is `system` or `manual`");
    return false;
}

static bool take_way(struct options *options, const char *word) {
    options->way = strcmp(word, "notify") == 0 ? WAY_NOTIFY : WAY_LIBRARY;
    if (options->way == WAY_NOTIFY || strcmp(word, "library") == 0)
        return true;
    report("--way is `library` or `notify`");
    return false;
}

static bool take_limit(struct options *options, const char *word) {
    size_t length = strlen(word);
    if (length > 0 && length <= MOST_DIGITS && strspn(word, "0123456789") == length) {
        options->limit = (unsigned)strtoul(word, NULL, 10);
        return true;
    }
    report("--answer-timeout is a number of seconds, with at most %d digits", MOST_DIGITS);
    return false;
}

/* The options without a letter. */
enum {
    CLOCK = 256,
    DAEMONS,
    EACH,
    SYS,
    ENVIRONMENT,
    FOLDER,
    SERVED,
    ANSWER_TIMEOUT,
    AT,
    AFTER,
    AT_FAULT,
    CALLS,
    VERSION,
    WAY,
    EXACT
};

/* Where an option's word is kept as it is; NULL for an option that is read. */
static const char **place_of(struct options *options, int option) {
    switch (option) {
    case 'a':
        return &options->answers;
    case 'b':
        return &options->board;
    case 't':
        return &options->transcript;
    case 'w':
        return &options->waves;
    case FOLDER:
        return &options->folder;
    case SERVED:
        return &options->served;
    case CALLS:
        return &options->calls;
    default:
        return NULL;
    }
}

/* Takes `--at CALL STATEMENT` or `--after CALL STATEMENT`, whose statement is the next word. */
static bool take_planned(struct options *options, int option, const char *call, char **words) {
    const char *statement = words[optind];
    if (statement)
        optind++;
    return calls_plan(&options->plan, option == AT ? CALLS_BEFORE : CALLS_AFTER, call, statement);
}

/* Takes one option. False where it is wrong, which is reported. */
static bool take(struct options *options, int option, const char *word) {
    const char **place = place_of(options, option);
    if (place) {
        *place = word;
        return true;
    }
    switch (option) {
    case CLOCK:
        return take_clock(options, word);
    case DAEMONS:
        options->daemons = true;
        return true;
    case EACH:
        options->each = true;
        return true;
    case SYS:
        options->sys = true;
        return true;
    case ENVIRONMENT:
        options->environment = true;
        return true;
    case ANSWER_TIMEOUT:
        return take_limit(options, word);
    case AT_FAULT:
        return calls_plan_fault(&options->plan, word);
    case WAY:
        return take_way(options, word);
    case EXACT:
        options->exact = true;
        return true;
    default:
        return false; /* (getopt has reported it) */
    }
}

/* Whether there is a command, or `--env` in its place. What is wrong is reported. */
static enum options_next take_command(struct options *options, char **words) {
    bool is_there = *words != NULL;
    bool is_wrong = options->environment && (options->daemons || options->sys);
    if (options->environment && options->daemons)
        report("--env runs no command, so --daemons has nothing to wait for: leave it out");
    else if (options->environment && options->sys)
        report("--env runs no command, so --sys has nobody to show /sys to: leave it out");
    else if (is_there && options->environment)
        report("--env runs no command: leave out %s", *words);
    else if (!is_there && !options->environment)
        report("there is no command to run: gpioserve [OPTIONS] -- COMMAND ..; --help says more");
    else if (options->environment && options->way == WAY_NOTIFY)
        report("--env gives variables, which lead to the library: leave out --way notify");
    else if (options->sys && options->way == WAY_NOTIFY)
        report("--sys goes with the library: leave out --way notify");
    is_wrong = is_wrong || ((options->environment || options->sys) && options->way == WAY_NOTIFY);
    options->command = is_there ? words : NULL;
    return is_there != options->environment && !is_wrong ? OPTIONS_RUN : OPTIONS_WRONG;
}

enum options_next options_read(struct options *options, int count, char **words) {
    static const struct option names[] = {{"board", required_argument, NULL, 'b'},
        {"transcript", required_argument, NULL, 't'}, {"answers", required_argument, NULL, 'a'},
        {"waves", required_argument, NULL, 'w'}, {"clock", required_argument, NULL, CLOCK},
        {"daemons", no_argument, NULL, DAEMONS}, {"each", no_argument, NULL, EACH}, {"sys", no_argument, NULL, SYS},
        {"env", no_argument, NULL, ENVIRONMENT}, {"folder", required_argument, NULL, FOLDER},
        {"served", required_argument, NULL, SERVED}, {"answer-timeout", required_argument, NULL, ANSWER_TIMEOUT},
        {"at", required_argument, NULL, AT}, {"after", required_argument, NULL, AFTER},
        {"at-fault", required_argument, NULL, AT_FAULT}, {"calls", required_argument, NULL, CALLS},
        {"way", required_argument, NULL, WAY}, {"exact", no_argument, NULL, EXACT}, {"help", no_argument, NULL, 'h'},
        {"version", no_argument, NULL, VERSION}, {NULL, 0, NULL, 0}};
    int option;
    *options = (struct options){.limit = LIMIT};
    while ((option = getopt_long(count, words, "+b:t:a:w:h", names, NULL)) != -1) {
        if (option == 'h') {
            fputs(help, stdout);
            return OPTIONS_HELP;
        }
        if (option == VERSION)
            return OPTIONS_VERSION;
        bool planned = option == AT || option == AFTER;
        if (!(planned ? take_planned(options, option, optarg, words) : take(options, option, optarg)))
            return OPTIONS_WRONG;
    }
    return take_command(options, words + optind);
}
