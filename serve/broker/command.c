#include "command.h"

#include <errno.h>
#include <fcntl.h>
#include <limits.h>
#include <stdio.h>
#include <stdlib.h>
#include <string.h>
#include <unistd.h>

#include "../wire.h"
#include "notify/start.h"
#include "process.h"
#include "program.h"
#include "report.h"
#include "room.h"
#include "show/module.h"
#include "show/namespace.h"

extern char **environ;

/* The variables by which a program finds the chips, each as `NAME=VALUE`. */
struct variables {
    char *preload, *folder;         /* no `preload` where the kernel notifies of calls */
    struct module_variables module; /* NULL where there is no tree */
};

/* The most variables of these. */
#define MOST_VARIABLES 4

static void variables_free(struct variables *variables) {
    free(variables->preload);
    free(variables->folder);
    module_free(&variables->module);
}

/* Makes the variables, which variables_free frees: what LD_PRELOAD names already stays in front of the library. False,
 * and reported, where memory is short. */
static bool variables_make(struct variables *variables, const struct command_view *view) {
    const char *before = getenv("LD_PRELOAD");
    memset(variables, 0, sizeof *variables);
    if (!view->notify && asprintf(&variables->preload, "LD_PRELOAD=%s%s%s", before ? before : "",
                             before && *before ? ":" : "", view->library) < 0)
        variables->preload = NULL;
    if (asprintf(&variables->folder, WIRE_VARIABLE "=%s", view->folder) < 0)
        variables->folder = NULL;
    if ((variables->preload || view->notify) && variables->folder &&
        (!view->has_tree || module_make(&variables->module, view->folder)))
        return true;
    report("out of memory");
    variables_free(variables);
    return false;
}

/* The texts of the variables: how many there are. */
static size_t variables_list(const struct variables *variables, char *texts[MOST_VARIABLES]) {
    size_t count = 0;
    if (variables->preload)
        texts[count++] = variables->preload;
    texts[count++] = variables->folder;
    if (variables->module.options)
        texts[count++] = variables->module.options;
    if (variables->module.path)
        texts[count++] = variables->module.path;
    return count;
}

static bool is_set_by(const char *variable, char *const *texts, size_t count) {
    for (size_t i = 0; i < count; i++)
        if (strncmp(variable, texts[i], strcspn(texts[i], "=") + 1) == 0)
            return true;
    return false;
}

/* The environment of the command: this one, with the variables set, whose texts the caller has. The caller frees the
 * list alone. */
static char **environment_with(const struct variables *variables) {
    char *texts[MOST_VARIABLES];
    size_t count = 0, kept = 0, set = variables_list(variables, texts);
    while (environ[count])
        count++;
    char **made = room_new((count + set + 1) * sizeof *made);
    for (size_t i = 0; i < count; i++)
        if (!is_set_by(environ[i], texts, set))
            made[kept++] = environ[i];
    memcpy(made + kept, texts, set * sizeof *texts);
    return made;
}

/* Reports why a command could not be started: its status. */
static int not_started(const char *word, int error) {
    report("%s can't be run: %s", word, strerror(error));
    return error == ENOENT ? STATUS_NOT_FOUND : STATUS_NOT_RUN;
}

/* Looks for the program. Where it is none that the library can be preloaded into, or that no way leads into, and it
 * finds nothing at /sys either, that is reported: the status to end with, or 0. */
static int check_program(const char *word, const struct command_view *view) {
    char path[PATH_MAX];
    if (!program_find(word, path))
        return not_started(word, ENOENT);
    const struct obstacle *obstacle = program_obstacle(path);
    if (!obstacle || view->has_sys || (view->notify && !obstacle->to_all))
        return 0;
    report("%s %s: %s%s", path, obstacle->what, obstacle->advice, obstacle->to_all ? "" : ", or take --way notify");
    return STATUS_NOT_RUN;
}

int command_start(pid_t *pid, char *const *words, const struct command_view *view) {
    struct variables variables;
    int status = check_program(words[0], view);
    if (status)
        return status;
    if (!variables_make(&variables, view))
        return STATUS_OWN;
    char **environment = environment_with(&variables);
    enum start_outcome outcome = START_NOT_RUN;
    int error = 0;
    if (view->notify)
        outcome = start_command(view->notify, pid, words, environment, &error);
    else if (view->has_sys)
        error = namespace_start(pid, words, view->folder, environment);
    else
        error = process_start(pid, words, -1, -1, environment);
    free(environment);
    variables_free(&variables);
    return error ? not_started(words[0], error) : outcome == START_REFUSED ? STATUS_NOT_RUN : 0;
}

/* Puts nothing in the place of the standard output: its number mustn't become that of another file. */
static bool close_output(void) {
    int nothing = open("/dev/null", O_WRONLY | O_CLOEXEC);
    bool closed = nothing >= 0 && dup2(nothing, STDOUT_FILENO) >= 0;
    if (nothing >= 0)
        close(nothing);
    return closed;
}

bool command_print_variables(const struct command_view *view) {
    struct variables variables;
    if (!variables_make(&variables, view))
        return false;
    char *texts[MOST_VARIABLES];
    size_t count = variables_list(&variables, texts);
    bool has_end = false, printed = true;
    for (size_t i = 0; i < count; i++)
        has_end = has_end || strchr(texts[i], '\n');
    for (size_t i = 0; i < count && !has_end; i++)
        printed = printed && printf("%s\n", texts[i]) >= 0;
    printed = !has_end && printed && printf("\n") >= 0 && fflush(stdout) == 0 && close_output();
    if (has_end)
        report("a folder whose name has a line end can't stand in a variable's line: set TMPDIR, or name one by "
               "--folder");
    else if (!printed)
        report("the variables can't be printed: %s", strerror(errno));
    variables_free(&variables);
    return printed;
}
