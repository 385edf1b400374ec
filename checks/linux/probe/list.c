#include "list.h"

#include <errno.h>
#include <limits.h>
#include <stdio.h>
#include <stdlib.h>
#include <string.h>

#include "commands.h"
#include "words.h"

/* What has been read so far: the list that lines are added to, and the names that its lines have made. */
struct reading {
    struct words words;
    struct lists *lists;
    const char *chips[NAMES_MOST], *files[NAMES_MOST];
    int chip_count, file_count;
    bool in_thread;
    int threads;
};

/* Makes capacity for one more entry of a size. False where there is no memory. */
static bool has_capacity(void **entries, size_t count, size_t *capacity, size_t size) {
    if (count < *capacity)
        return true;
    size_t wanted = *capacity ? 2 * *capacity : 8;
    void *more = realloc(*entries, wanted * size);
    if (!more)
        return false;
    *entries = more;
    *capacity = wanted;
    return true;
}

static struct list *last_list(struct reading *reading) {
    return reading->lists->count ? &reading->lists->lists[reading->lists->count - 1] : NULL;
}

static bool no_memory(struct reading *reading) {
    return words_wrong(&reading->words, "there is not enough memory");
}

/* Begins a section of the last list, of a thread of that name or, with NULL, of the list's own. */
static bool add_section(struct reading *reading, const char *thread) {
    struct list *list = last_list(reading);
    if (!has_capacity((void **)&list->sections, list->count, &list->capacity, sizeof *list->sections))
        return no_memory(reading);
    list->sections[list->count++] = (struct section){.thread = thread};
    return true;
}

/* list NAME [times N] */
static bool read_list(struct reading *reading) {
    struct lists *lists = reading->lists;
    struct list list = {0};
    if (reading->in_thread)
        return words_wrong(&reading->words, "the threads before this end with join");
    list.name = words_need(&reading->words, "the list's name");
    const char *word = list.name ? words_next(&reading->words) : NULL;
    if (word && strcmp(word, "times") != 0)
        return words_wrong(&reading->words, "after a list's name comes times N, or nothing");
    if (word &&
        (!words_need(&reading->words, "how many times") || !words_number(&reading->words, TIMES_MOST, &list.times)))
        return false;
    if (!list.name)
        return false;
    if (!has_capacity((void **)&lists->lists, lists->count, &lists->capacity, sizeof *lists->lists))
        return no_memory(reading);
    lists->lists[lists->count++] = list;
    reading->chip_count = reading->file_count = reading->threads = 0;
    return add_section(reading, NULL);
}

/* thread NAME, or join */
static bool read_thread(struct reading *reading) {
    const char *name = words_need(&reading->words, "the thread's name");
    if (name && reading->threads == THREADS_MOST)
        return words_wrong(&reading->words, "a list has at most 8 threads");
    reading->in_thread = true;
    reading->threads++;
    return name && add_section(reading, name);
}

static bool read_join(struct reading *reading) {
    if (!reading->in_thread)
        return words_wrong(&reading->words, "there is no thread to join");
    reading->in_thread = false;
    return add_section(reading, NULL);
}

/* The number of the next word among the names that were made; `makes` adds it where it is new. */
static bool take_name(struct reading *reading, const char **names, int *count, bool makes, int *number) {
    const char *name = words_need(&reading->words, "a name");
    if (!name)
        return false;
    for (*number = 0; *number < *count; ++*number)
        if (strcmp(names[*number], name) == 0)
            return true;
    if (!makes)
        return words_wrong(&reading->words, "no action before this one makes this name");
    if (*count == NAMES_MOST)
        return words_wrong(&reading->words, "a list has at most 128 names");
    names[(*count)++] = name;
    return true;
}

static bool take_chip(struct reading *reading, bool makes, int *number) {
    return take_name(reading, reading->chips, &reading->chip_count, makes, number);
}

static bool take_file(struct reading *reading, bool makes, int *number) {
    return take_name(reading, reading->files, &reading->file_count, makes, number);
}

static bool take_number(struct reading *reading, const char *what, unsigned long most, unsigned long *number) {
    return words_need(&reading->words, what) && words_number(&reading->words, most, number);
}

/* A path below gpio-sim's folder: it leads nowhere else. */
static bool take_path(struct reading *reading, const char **path) {
    *path = words_need(&reading->words, "a path");
    if (*path && (**path == '/' || strstr(*path, "..") || strlen(*path) > 200))
        return words_wrong(&reading->words, "a path stays below gpio-sim's folder, and has at most 200 letters");
    return *path != NULL;
}

/* DEVICE/BANK, and no more */
static bool take_bank(struct reading *reading, const char **path) {
    if (!take_path(reading, path))
        return false;
    const char *slash = strchr(*path, '/');
    bool is_bank = slash && slash != *path && slash[1] != '\0' && !strchr(slash + 1, '/');
    return is_bank || words_wrong(&reading->words, "a chip is named by DEVICE/BANK");
}

static bool take_value(struct reading *reading, const char **value) {
    return (*value = words_rest(&reading->words, "a value")) != NULL;
}

static bool read_ioctl(struct reading *reading, struct action *action, int version) {
    bool has_as;
    enum kind kind;
    size_t place;
    if (!take_file(reading, false, &action->file) || !words_need(&reading->words, "a command"))
        return false;
    if (!commands_named(version, reading->words.word, &action->number) &&
        !words_number(&reading->words, UINT_MAX, &action->number))
        return false;
    if (!words_bytes(&reading->words, &action->bytes, &action->length, &has_as))
        return false;
    if (has_as != commands_make(action->number, &kind, &place))
        return words_wrong(&reading->words, "as NAME stands exactly where the command makes a file");
    return !has_as || take_file(reading, true, &action->made);
}

/* chip NAME DEVICE/BANK, put CHIP LINE FILE VALUE, get CHIP LINE FILE */
static bool read_line_action(struct reading *reading, struct action *action) {
    if (!take_chip(reading, action->verb == CHIP, &action->chip))
        return false;
    if (action->verb == CHIP)
        return take_bank(reading, &action->path);
    if (!take_number(reading, "a line", 100000, &action->number) || !take_path(reading, &action->path))
        return false;
    return action->verb == GET || take_value(reading, &action->value);
}

/* The words after an action's verb. */
static bool read_rest(struct reading *reading, struct action *action, int version) {
    switch (action->verb) {
    case MKDIR:
    case RMDIR:
    case READ:
        return take_path(reading, &action->path);
    case WRITE:
        return take_path(reading, &action->path) && take_value(reading, &action->value);
    case CHIP:
    case PUT:
    case GET:
        return read_line_action(reading, action);
    case OPEN:
        return take_file(reading, true, &action->made) && take_chip(reading, false, &action->chip);
    case IOCTL:
        return read_ioctl(reading, action, version);
    case EVENTS:
        return take_file(reading, false, &action->file) && take_number(reading, "a length", 65536, &action->number);
    case POLL:
    case CLOSE:
        return take_file(reading, false, &action->file);
    case SLEEP:
        return take_number(reading, "milliseconds", 60000, &action->number);
    }
    return false;
}

static const struct {
    const char *word;
    enum verb verb;
    int version; /* of the uAPI's commands */
} verbs[] = {{"mkdir", MKDIR, 0}, {"rmdir", RMDIR, 0}, {"write", WRITE, 0}, {"read", READ, 0}, {"chip", CHIP, 0},
    {"put", PUT, 0}, {"get", GET, 0}, {"open", OPEN, 0}, {"ioctl", IOCTL, 2}, {"ioctl1", IOCTL, 1},
    {"events", EVENTS, 0}, {"poll", POLL, 0}, {"close", CLOSE, 0}, {"sleep", SLEEP, 0}};

/* Reads an action into the last section. */
static bool read_action(struct reading *reading, const char *word) {
    struct action action = {.chip = NO_NAME, .file = NO_NAME, .made = NO_NAME};
    size_t at = 0;
    while (at < sizeof verbs / sizeof *verbs && strcmp(verbs[at].word, word) != 0)
        at++;
    if (at == sizeof verbs / sizeof *verbs)
        return words_wrong(&reading->words, "there is no such action");
    action.verb = verbs[at].verb;
    if (!read_rest(reading, &action, verbs[at].version))
        return false;
    struct list *list = last_list(reading);
    struct section *section = &list->sections[list->count - 1];
    if (!has_capacity((void **)&section->actions, section->count, &section->capacity, sizeof *section->actions))
        return no_memory(reading);
    section->actions[section->count++] = action;
    return true;
}

/* Reads a line, whose text is kept. */
static bool read_line(struct reading *reading) {
    const char *word = words_next(&reading->words);
    bool is_read;
    if (!word || *word == '#')
        return true;
    if (strcmp(word, "list") == 0)
        is_read = read_list(reading);
    else if (!last_list(reading))
        return words_wrong(&reading->words, "a file of lists begins with list NAME");
    else if (strcmp(word, "thread") == 0)
        is_read = read_thread(reading);
    else if (strcmp(word, "join") == 0)
        is_read = read_join(reading);
    else
        is_read = read_action(reading, word);
    return is_read && (!words_next(&reading->words) || words_wrong(&reading->words, "nothing more comes here"));
}

/* Reads the lines of an open file. */
static bool read_lines(struct reading *reading, FILE *stream) {
    bool is_read = true;
    while (is_read) {
        size_t capacity = 0;
        char *text = NULL;
        ssize_t length = getline(&text, &capacity, stream);
        if (length < 0) {
            free(text);
            break;
        }
        text[strcspn(text, "\n")] = '\0';
        reading->words = (struct words){reading->words.file, reading->words.line + 1, text, text, text, false};
        is_read = strlen(text) + 1 >= (size_t)length || words_wrong(&reading->words, "a line has no byte 0");
        is_read = is_read && read_line(reading);
    }
    if (is_read && reading->in_thread) {
        reading->words.word = reading->words.text;
        is_read = words_wrong(&reading->words, "the last threads end with join");
    }
    return is_read;
}

bool lists_read(struct lists *lists, const char *file) {
    struct reading *reading = calloc(1, sizeof *reading);
    FILE *stream = strcmp(file, "-") == 0 ? stdin : fopen(file, "re");
    if (!reading || !stream) {
        fprintf(stderr, "%s: %s\n", file, strerror(errno));
        free(reading);
        return false;
    }
    reading->lists = lists;
    reading->words.file = file;
    bool is_read = read_lines(reading, stream);
    if (is_read && ferror(stream)) {
        fprintf(stderr, "%s: it cannot be read\n", file);
        is_read = false;
    }
    if (stream != stdin)
        fclose(stream);
    free(reading);
    return is_read;
}
