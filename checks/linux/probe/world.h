/* What a list has made so far: chips that it knows, files that it has open, folders. */
#ifndef WORLD_H
#define WORLD_H

#include <pthread.h>
#include <stdatomic.h>
#include <stdint.h>

#include "commands.h"
#include "list.h"
#include "text.h"

enum { FOLDERS_MOST = 512, BUFFER_PAGES = 17 };

struct chip {
    char name[32];   /* the kernel's, as gpiochip3; empty where it is not known */
    char device[32]; /* gpio-sim.N */
};

struct file {
    atomic_int descriptor; /* -1: not open */
    enum kind kind;
    int watch; /* of a chip's file: the version of its watches */
};

struct world {
    struct chip chips[NAMES_MOST];
    struct file files[NAMES_MOST];
    const char *folders[FOLDERS_MOST]; /* those that were made, below gpio-sim's folder */
    size_t folder_count;
    pthread_mutex_t lock;             /* of the folders */
    uint64_t monotonic, realtime;     /* when the list began */
    unsigned long pause_microseconds; /* after each put and each close */
};

/* Who makes actions: the list's own thread, or one of its others. */
struct maker {
    struct world *world;
    struct text results;       /* a line for each action */
    int made;                  /* how many files it has made */
    unsigned char *buffer_end; /* the end of memory after which nothing is mapped */
    unsigned char *scratch;    /* BUFFER_PAGES pages */
};

/* An empty world. */
void world_begin(struct world *world);

/* Closes all files, ends all devices that the list made, and removes its folders. */
void world_end(struct world *world);

/* The nanoseconds of a clock. */
uint64_t world_clock(clockid_t clock);

/* Prepares the buffers of a maker. The program ends with status 3 where there is no memory for them. */
void maker_begin(struct maker *maker, struct world *world);
void maker_end(struct maker *maker);

/* Makes an action, and adds its result as a line. */
void make_action(struct maker *maker, const struct action *action);

/* The two halves of it: on the tree, and on open files. */
void make_on_tree(struct maker *maker, const struct action *action);
void make_on_file(struct maker *maker, const struct action *action);

#endif
