#include "world.h"

#include <stdio.h>
#include <stdlib.h>
#include <string.h>
#include <sys/mman.h>
#include <time.h>
#include <unistd.h>

#include "paths.h"
#include "tree.h"

uint64_t world_clock(clockid_t clock) {
    struct timespec now;
    clock_gettime(clock, &now);
    return (uint64_t)now.tv_sec * 1000000000u + (uint64_t)now.tv_nsec;
}

void world_begin(struct world *world) {
    memset(world->chips, 0, sizeof world->chips);
    for (size_t i = 0; i < NAMES_MOST; i++)
        atomic_store(&world->files[i].descriptor, -1);
    world->folder_count = 0;
    world->monotonic = world_clock(CLOCK_MONOTONIC);
    world->realtime = world_clock(CLOCK_REALTIME);
}

void world_end(struct world *world) {
    char path[PATH_ROOM];
    for (size_t i = 0; i < NAMES_MOST; i++) {
        int descriptor = atomic_exchange(&world->files[i].descriptor, -1);
        if (descriptor >= 0)
            close(descriptor);
    }
    for (size_t i = 0; i < world->folder_count; i++)
        if (!strchr(world->folders[i], '/')) {
            snprintf(path, sizeof path, CONFIGFS "/%s/live", world->folders[i]);
            tree_write(path, "0");
        }
    for (size_t i = world->folder_count; i > 0; i--) {
        snprintf(path, sizeof path, CONFIGFS "/%s", world->folders[i - 1]);
        tree_rmdir(path);
    }
}

void maker_begin(struct maker *maker, struct world *world) {
    size_t page = (size_t)sysconf(_SC_PAGESIZE), length = BUFFER_PAGES * page;
    unsigned char *memory = mmap(NULL, length + page, PROT_READ | PROT_WRITE, MAP_PRIVATE | MAP_ANONYMOUS, -1, 0);
    *maker = (struct maker){.world = world, .scratch = malloc(length)};
    if (memory == MAP_FAILED || !maker->scratch || mprotect(memory + length, page, PROT_NONE)) {
        fprintf(stderr, "probe: there is not enough memory\n");
        exit(3);
    }
    maker->buffer_end = memory + length;
}

void maker_end(struct maker *maker) {
    size_t page = (size_t)sysconf(_SC_PAGESIZE), length = BUFFER_PAGES * page;
    munmap(maker->buffer_end - length, length + page);
    free(maker->scratch);
    text_free(&maker->results);
}

void make_action(struct maker *maker, const struct action *action) {
    switch (action->verb) {
    case MKDIR:
    case RMDIR:
    case WRITE:
    case READ:
    case CHIP:
    case PUT:
    case GET:
        make_on_tree(maker, action);
        break;
    case OPEN:
    case IOCTL:
    case EVENTS:
    case POLL:
    case CLOSE:
        make_on_file(maker, action);
        break;
    case SLEEP:
        usleep((useconds_t)action->number * 1000);
        text_add_error(&maker->results, 0);
        break;
    }
    text_add(&maker->results, "\n");
}
