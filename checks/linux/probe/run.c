#include "run.h"

#include <pthread.h>
#include <stdio.h>
#include <stdlib.h>
#include <string.h>
#include <unistd.h>

#include "world.h"

/* A section that a thread of its own makes. */
struct companion {
    pthread_t thread;
    pthread_barrier_t *start;
    const struct section *section;
    struct maker maker;
};

static void make_section(struct maker *maker, const struct section *section) {
    for (size_t i = 0; i < section->count; i++)
        make_action(maker, &section->actions[i]);
}

static void *run_companion(void *given) {
    struct companion *companion = given;
    pthread_barrier_wait(companion->start);
    make_section(&companion->maker, companion->section);
    return NULL;
}

/* Makes `count` sections at the same time, and adds their results to those of the list's own thread. */
static void make_together(struct maker *maker, const struct section *sections, size_t count) {
    struct companion companions[THREADS_MOST];
    pthread_barrier_t start;
    pthread_barrier_init(&start, NULL, (unsigned int)count);
    for (size_t i = 0; i < count; i++) {
        companions[i].start = &start;
        companions[i].section = &sections[i];
        maker_begin(&companions[i].maker, maker->world);
        if (pthread_create(&companions[i].thread, NULL, run_companion, &companions[i])) {
            fprintf(stderr, "probe: a thread cannot be made\n");
            exit(3);
        }
    }
    for (size_t i = 0; i < count; i++) {
        const struct text *results = &companions[i].maker.results;
        pthread_join(companions[i].thread, NULL);
        text_add(&maker->results, "thread %s\n%s", sections[i].thread, results->letters ? results->letters : "");
        maker_end(&companions[i].maker);
    }
    text_add(&maker->results, "join\n");
    pthread_barrier_destroy(&start);
}

/* Makes a list once, into a maker's results. */
static void make_list(struct maker *maker, const struct list *list) {
    size_t at = 0, together;
    while (at < list->count) {
        for (together = 0; at + together < list->count && list->sections[at + together].thread;)
            together++;
        if (together)
            make_together(maker, &list->sections[at], together);
        else
            make_section(maker, &list->sections[at]);
        at += together ? together : 1;
    }
}

static int compare_texts(const void *left, const void *right) {
    return strcmp(*(char *const *)left, *(char *const *)right);
}

/* One outcome as one line: its results stand between semicolons. */
static char *outcome_of(const struct text *results) {
    struct text line = {0};
    for (const char *at = results->letters; at && *at; at += strcspn(at, "\n") + 1)
        text_add(&line, "%s%.*s", line.length ? "; " : "", (int)strcspn(at, "\n"), at);
    if (!line.letters)
        text_add(&line, "-");
    return line.letters;
}

/* Makes a list several times, and prints each outcome once. */
static void make_often(struct maker *maker, const struct list *list, unsigned long times, unsigned long limit) {
    char **outcomes = calloc(times, sizeof *outcomes);
    if (!outcomes) {
        fprintf(stderr, "probe: there is not enough memory\n");
        exit(3);
    }
    for (unsigned long i = 0; i < times; i++) {
        alarm((unsigned int)limit);
        text_clear(&maker->results);
        maker->made = 0;
        world_begin(maker->world);
        make_list(maker, list);
        world_end(maker->world);
        outcomes[i] = outcome_of(&maker->results);
    }
    qsort(outcomes, times, sizeof *outcomes, compare_texts);
    for (unsigned long i = 0; i < times; i++)
        if (i == 0 || strcmp(outcomes[i], outcomes[i - 1]) != 0)
            printf("outcome %s\n", outcomes[i]);
    for (unsigned long i = 0; i < times; i++)
        free(outcomes[i]);
    free(outcomes);
}

void run_list(const struct list *list, const struct run_options *options) {
    static struct world world = {.lock = PTHREAD_MUTEX_INITIALIZER};
    struct maker maker;
    world.pause_microseconds = options->pause_microseconds;
    maker_begin(&maker, &world);
    printf("list %s\n", list->name);
    fflush(stdout);
    if (list->times) {
        make_often(&maker, list, options->times ? options->times : list->times, options->limit_seconds);
    } else {
        alarm((unsigned int)options->limit_seconds);
        world_begin(&world);
        make_list(&maker, list);
        world_end(&world);
        fputs(maker.results.letters ? maker.results.letters : "", stdout);
    }
    alarm(0);
    fflush(stdout);
    maker_end(&maker);
}
