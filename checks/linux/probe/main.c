/* probe: makes lists of actions on gpio-sim by plain system calls, and prints what each gives. */
#include <getopt.h>
#include <signal.h>
#include <stdio.h>
#include <stdlib.h>
#include <string.h>
#include <unistd.h>

#include "list.h"
#include "paths.h"
#include "run.h"
#include "tree.h"

enum status { DONE = 0, NO_LIST = 2, NO_GPIO_SIM = 3, TOO_LONG = 4 };

static const char help[] =
    "probe [OPTIONS] LISTS ..\n"
    "\n"
    "Makes each list of actions of the files LISTS on gpio-sim, by plain system calls, and prints what each action\n"
    "gives: on Linux, as root, or under gpioserve. - stands for standard input. checks/linux/README.md has the "
    "actions.\n"
    "\n"
    "  --times N         makes lists that say `times` N times\n"
    "  --pause N         waits N microseconds after each put and each close, for what comes of it elsewhere (0)\n"
    "  --limit N         ends with status 4 where a list takes longer than N seconds (60)\n"
    "  --help            prints this\n"
    "\n"
    "Status 0; 2 where a file is no list, and then nothing is made; 3 where there is no gpio-sim or something else is\n"
    "missing; 4 where a list takes too long.\n";

/* Ends the program: the list whose name was printed last hangs. */
static void too_long(int signal_number) {
    static const char message[] = "probe: the last list takes too long\n";
    (void)signal_number;
    if (write(STDERR_FILENO, message, sizeof message - 1) < 0)
        _exit(TOO_LONG + 1);
    _exit(TOO_LONG);
}

/* The number of an option's word, or the end of the program. */
static unsigned long number_of(const char *word) {
    char *end;
    unsigned long number = strtoul(word, &end, 10);
    if (*word < '0' || *word > '9' || *end != '\0' || number > TIMES_MOST) {
        fprintf(stderr, "probe: %s is no number from 0 to %d\n", word, TIMES_MOST);
        exit(NO_LIST);
    }
    return number;
}

/* Takes the options. Returns -1, or the status with which the program ends at once. */
static int take_options(int count, char **words, struct run_options *options) {
    static const struct option names[] = {{"times", required_argument, NULL, 't'},
        {"pause", required_argument, NULL, 'p'}, {"limit", required_argument, NULL, 'l'},
        {"help", no_argument, NULL, 'h'}, {0}};
    int option;
    while ((option = getopt_long(count, words, "h", names, NULL)) != -1) {
        if (option == 't')
            options->times = number_of(optarg);
        else if (option == 'p')
            options->pause_microseconds = number_of(optarg);
        else if (option == 'l')
            options->limit_seconds = number_of(optarg);
        else if (option == 'h')
            return fputs(help, stdout) < 0 ? NO_GPIO_SIM : DONE;
        else
            return NO_LIST;
    }
    return -1;
}

/* Whether there is a gpio-sim in which this process may make devices. */
static bool has_gpio_sim(void) {
    int error = tree_mkdir(CONFIGFS "/probe-looks");
    if (error)
        fprintf(stderr, "probe: there is no gpio-sim here: mkdir " CONFIGFS "/probe-looks: %s\n", strerror(error));
    else
        tree_rmdir(CONFIGFS "/probe-looks");
    return error == 0;
}

int main(int count, char **words) {
    static struct lists lists;
    struct run_options options = {.limit_seconds = 60};
    int status = take_options(count, words, &options);
    if (status >= 0)
        return status;
    if (optind == count) {
        fprintf(stderr, "probe: there is no list: probe LISTS ..; --help says more\n");
        return NO_LIST;
    }
    for (int i = optind; i < count; i++)
        if (!lists_read(&lists, words[i]))
            return NO_LIST;
    if (!has_gpio_sim())
        return NO_GPIO_SIM;
    signal(SIGALRM, too_long);
    for (size_t i = 0; i < lists.count; i++)
        run_list(&lists.lists[i], &options);
    return ferror(stdout) ? NO_GPIO_SIM : DONE;
}
