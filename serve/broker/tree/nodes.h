/* The devices, banks and lines of the tree: their names, and which there are. Values stay in the served program. */
#ifndef NODES_H
#define NODES_H

#include <stdbool.h>

#include "tree.h"

/* The longest name of a device or a bank in the served program, with its zero. */
#define NODE_NAME 16
/* The chip of a bank whose device isn't live, or whose chip wasn't asked for yet. */
#define NODE_NO_CHIP WIRE_CHIPS

struct tree_line {
    struct tree_line *next;
    unsigned offset;
    bool hog;
};

struct tree_bank {
    struct tree_bank *next;
    char *name;
    char machine_name[NODE_NAME];
    unsigned many; /* a number of lines that no chip here can have, or 0; with it the device doesn't go live */
    unsigned chip; /* or NODE_NO_CHIP */
    struct tree_line *lines;
};

struct tree_device {
    struct tree_device *next;
    char *name;
    char machine_name[NODE_NAME];
    unsigned number; /* K of `gpio-sim.K`, by which sysfs shows it */
    bool live;
    struct tree_bank *banks;
};

/* Each gives NULL where there is none. */
struct tree_device *nodes_device(struct tree *tree, const char *name);
struct tree_device *nodes_device_of_machine(struct tree *tree, const char *machine_name);
struct tree_device *nodes_live_device(struct tree *tree, unsigned number);
struct tree_bank *nodes_bank(struct tree_device *device, const char *name);
struct tree_bank *nodes_bank_of_machine(struct tree_device *device, const char *machine_name);
struct tree_line *nodes_line(struct tree_bank *bank, unsigned offset);

/* The lowest K for which neither a device is `gpio-sim.K` in sysfs, nor has that name in the served program. */
unsigned nodes_free_number(struct tree *tree);
/* The lowest J above those of all banks of a device with the name `nodeJ`. */
unsigned nodes_free_bank(const struct tree_device *device);

/* Writes a name of the served program: `front` and a number. False where it is too long. */
bool nodes_write_name(char name[NODE_NAME], const char *front, unsigned number);

/* Each adds a node behind the others, which the tree owns. */
void nodes_add_device(struct tree *tree, const char *name, const char *machine_name, unsigned number);
void nodes_add_bank(struct tree_device *device, const char *name, const char *machine_name);
void nodes_add_line(struct tree_bank *bank, unsigned offset);

/* Each takes a node out, with all below it, and frees it. */
void nodes_remove_device(struct tree *tree, struct tree_device *device);
void nodes_remove_bank(struct tree_device *device, struct tree_bank *bank);
void nodes_remove_line(struct tree_bank *bank, struct tree_line *line);

/* Notes whether a device is live: from now on the chips of its banks are others, or none. */
void nodes_set_live(struct tree_device *device, bool live);

#endif
