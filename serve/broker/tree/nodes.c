#include "nodes.h"

#include <stdio.h>
#include <stdlib.h>
#include <string.h>

#include "../room.h"
#include "texts.h"

struct tree_device *nodes_device(struct tree *tree, const char *name) {
    struct tree_device *device = tree->devices;
    while (device && strcmp(device->name, name) != 0)
        device = device->next;
    return device;
}

struct tree_device *nodes_device_of_machine(struct tree *tree, const char *machine_name) {
    struct tree_device *device = tree->devices;
    while (device && strcmp(device->machine_name, machine_name) != 0)
        device = device->next;
    return device;
}

struct tree_device *nodes_live_device(struct tree *tree, unsigned number) {
    struct tree_device *device = tree->devices;
    while (device && (device->number != number || !device->live))
        device = device->next;
    return device;
}

struct tree_bank *nodes_bank(struct tree_device *device, const char *name) {
    struct tree_bank *bank = device->banks;
    while (bank && strcmp(bank->name, name) != 0)
        bank = bank->next;
    return bank;
}

struct tree_bank *nodes_bank_of_machine(struct tree_device *device, const char *machine_name) {
    struct tree_bank *bank = device->banks;
    while (bank && strcmp(bank->machine_name, machine_name) != 0)
        bank = bank->next;
    return bank;
}

struct tree_line *nodes_line(struct tree_bank *bank, unsigned offset) {
    struct tree_line *line = bank->lines;
    while (line && line->offset != offset)
        line = line->next;
    return line;
}

static bool is_number_taken(const struct tree *tree, unsigned number) {
    for (const struct tree_device *device = tree->devices; device; device = device->next) {
        unsigned named;
        if (device->number == number || (texts_numbered(device->machine_name, "gpio-sim.", &named) && named == number))
            return true;
    }
    return false;
}

unsigned nodes_free_number(struct tree *tree) {
    unsigned number = 0;
    while (is_number_taken(tree, number))
        number++;
    return number;
}

unsigned nodes_free_bank(const struct tree_device *device) {
    unsigned next = 0, number;
    for (const struct tree_bank *bank = device->banks; bank; bank = bank->next)
        if (texts_numbered(bank->machine_name, "node", &number) && number >= next)
            next = number + 1;
    return next;
}

bool nodes_write_name(char name[NODE_NAME], const char *front, unsigned number) {
    return snprintf(name, NODE_NAME, "%s%u", front, number) < NODE_NAME;
}

/* A copy of a text, for the caller to free. */
static char *copy_of(const char *text) {
    size_t size = strlen(text) + 1;
    return memcpy(room_new(size), text, size);
}

void nodes_add_device(struct tree *tree, const char *name, const char *machine_name, unsigned number) {
    struct tree_device *device = room_new(sizeof *device), **last = &tree->devices;
    device->name = copy_of(name);
    snprintf(device->machine_name, sizeof device->machine_name, "%s", machine_name);
    device->number = number;
    while (*last)
        last = &(*last)->next;
    *last = device;
}

void nodes_add_bank(struct tree_device *device, const char *name, const char *machine_name) {
    struct tree_bank *bank = room_new(sizeof *bank), **last = &device->banks;
    bank->name = copy_of(name);
    snprintf(bank->machine_name, sizeof bank->machine_name, "%s", machine_name);
    bank->chip = NODE_NO_CHIP;
    while (*last)
        last = &(*last)->next;
    *last = bank;
}

void nodes_add_line(struct tree_bank *bank, unsigned offset) {
    struct tree_line *line = room_new(sizeof *line), **last = &bank->lines;
    line->offset = offset;
    while (*last)
        last = &(*last)->next;
    *last = line;
}

void nodes_remove_line(struct tree_bank *bank, struct tree_line *line) {
    struct tree_line **at = &bank->lines;
    while (*at != line)
        at = &(*at)->next;
    *at = line->next;
    free(line);
}

void nodes_remove_bank(struct tree_device *device, struct tree_bank *bank) {
    struct tree_bank **at = &device->banks;
    while (*at != bank)
        at = &(*at)->next;
    *at = bank->next;
    while (bank->lines)
        nodes_remove_line(bank, bank->lines);
    free(bank->name);
    free(bank);
}

void nodes_remove_device(struct tree *tree, struct tree_device *device) {
    struct tree_device **at = &tree->devices;
    while (*at != device)
        at = &(*at)->next;
    *at = device->next;
    while (device->banks)
        nodes_remove_bank(device, device->banks);
    free(device->name);
    free(device);
}

void nodes_set_live(struct tree_device *device, bool live) {
    device->live = live;
    for (struct tree_bank *bank = device->banks; bank; bank = bank->next)
        bank->chip = NODE_NO_CHIP;
}

void tree_free(struct tree *tree) {
    while (tree->devices)
        nodes_remove_device(tree, tree->devices);
    memset(tree->line_counts, 0, sizeof tree->line_counts);
}
