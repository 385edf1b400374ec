/* What others make: the statements of the board and of gpiosay, and the chips that are there. */
#include <stdio.h>
#include <string.h>

#include "nodes.h"
#include "texts.h"

/* The longest statement that may concern a device, with its zero: paths of the served program are short. */
#define MOST_STATEMENT 256

/* The parts of a path in the served program: DEV, BANK, lineN, and hog or an attribute. */
#define MOST_PARTS 4

struct machine_path {
    char copy[MOST_STATEMENT];
    char *parts[MOST_PARTS];
    int count;
};

static void divide(struct machine_path *path, const char *text) {
    char *rest = NULL;
    path->count = 0;
    snprintf(path->copy, sizeof path->copy, "%s", text);
    for (char *part = strtok_r(path->copy, "/", &rest); part && path->count < MOST_PARTS;
         part = strtok_r(NULL, "/", &rest))
        path->parts[path->count++] = part;
}

/* What a path leads to, as far as it is there. */
struct found {
    struct tree_device *device;
    struct tree_bank *bank;
    struct tree_line *line;
};

static struct found find(struct tree *tree, const struct machine_path *path) {
    struct found found = {NULL, NULL, NULL};
    unsigned offset;
    if (path->count > 0)
        found.device = nodes_device_of_machine(tree, path->parts[0]);
    if (found.device && path->count > 1)
        found.bank = nodes_bank_of_machine(found.device, path->parts[1]);
    if (found.bank && path->count > 2 && texts_numbered(path->parts[2], "line", &offset))
        found.line = nodes_line(found.bank, offset);
    return found;
}

/* A device of another's making has its own name in configfs too; where a program has given that one to a device of its
 * own, it isn't shown there. */
static void note_device(struct tree *tree, const char *name) {
    unsigned number;
    if (nodes_device(tree, name))
        return;
    bool is_free = texts_numbered(name, "gpio-sim.", &number);
    for (struct tree_device *device = tree->devices; device; device = device->next)
        is_free = is_free && device->number != number;
    nodes_add_device(tree, name, name, is_free ? number : nodes_free_number(tree));
}

static void note_mkdir(struct tree *tree, const struct machine_path *path) {
    struct found found = find(tree, path);
    unsigned offset;
    if (path->count == 1 && !found.device)
        note_device(tree, path->parts[0]);
    else if (path->count == 2 && found.device && !found.bank && !nodes_bank(found.device, path->parts[1]))
        nodes_add_bank(found.device, path->parts[1], path->parts[1]);
    else if (path->count == 3 && found.bank && !found.line && texts_numbered(path->parts[2], "line", &offset))
        nodes_add_line(found.bank, offset);
    else if (path->count == 4 && found.line)
        found.line->hog = true;
}

static void note_rmdir(struct tree *tree, const struct machine_path *path) {
    struct found found = find(tree, path);
    if (path->count == 1 && found.device)
        nodes_remove_device(tree, found.device);
    else if (path->count == 2 && found.bank)
        nodes_remove_bank(found.device, found.bank);
    else if (path->count == 3 && found.line)
        nodes_remove_line(found.bank, found.line);
    else if (path->count == 4 && found.line)
        found.line->hog = false;
}

static void note_write(struct tree *tree, const struct machine_path *path, const char *value) {
    struct found found = find(tree, path);
    if (found.device && path->count == 2 && strcmp(path->parts[1], "live") == 0)
        nodes_set_live(found.device, strcmp(value, "1") == 0);
    else if (found.bank && path->count == 3 && strcmp(path->parts[2], "num_lines") == 0)
        found.bank->many = 0;
}

void tree_note_statement(struct tree *tree, const char *line) {
    char verb[8], text[MOST_STATEMENT], word[TEXTS_WORD] = "", value[TEXTS_VALUE];
    struct machine_path path;
    if (strlen(line) >= MOST_STATEMENT || sscanf(line, "%7s %255s %63s", verb, text, word) < 2)
        return;
    texts_read_word(value, word);
    divide(&path, text);
    if (strcmp(verb, "mkdir") == 0)
        note_mkdir(tree, &path);
    else if (strcmp(verb, "rmdir") == 0)
        note_rmdir(tree, &path);
    else if (strcmp(verb, "write") == 0)
        note_write(tree, &path, value);
}

void tree_note_chips(struct tree *tree, const char *text) {
    memset(tree->line_counts, 0, sizeof tree->line_counts);
    while (text && *text) {
        unsigned chip, count;
        const char *end = strchr(text, '\n');
        const char *open = end ? memrchr(text, '(', (size_t)(end - text)) : NULL;
        if (open && sscanf(text, "gpiochip%u ", &chip) == 1 && chip < WIRE_CHIPS &&
            sscanf(open, "(%u lines)", &count) == 1)
            tree->line_counts[chip] = count;
        text = end ? end + 1 : NULL;
    }
}
