#include "descendants.h"

#include <dirent.h>
#include <errno.h>
#include <signal.h>
#include <stdio.h>
#include <stdlib.h>
#include <string.h>
#include <sys/prctl.h>
#include <sys/wait.h>
#include <unistd.h>

#include "report.h"

/* A process, as /proc shows it. */
struct seen {
    pid_t pid, parent;
    char state; /* Z: it has ended, and its parent hasn't taken that yet */
};

/* Reads what /proc says of a process. False where it has gone, or the name is no process's. */
static bool see(const char *name, struct seen *seen) {
    char path[64], text[512];
    long parent;
    if (name[0] < '1' || name[0] > '9' || snprintf(path, sizeof path, "/proc/%.16s/stat", name) >= (int)sizeof path)
        return false;
    FILE *file = fopen(path, "re");
    size_t length = file ? fread(text, 1, sizeof text - 1, file) : 0;
    if (file)
        fclose(file);
    text[length] = 0;
    /* (a program's name stands in parentheses, and may have some itself) */
    const char *rest = strrchr(text, ')');
    if (!rest || sscanf(rest, ") %c %ld", &seen->state, &parent) != 2)
        return false;
    seen->pid = (pid_t)strtol(name, NULL, 10);
    seen->parent = (pid_t)parent;
    return true;
}

/* Calls a function for each child. False where /proc can't be read. */
static bool for_each_child(void (*call)(void *context, const struct seen *child), void *context) {
    struct seen seen;
    struct dirent *entry;
    DIR *folder = opendir("/proc");
    while (folder && (entry = readdir(folder)))
        if (see(entry->d_name, &seen) && seen.parent == getpid())
            call(context, &seen);
    if (folder)
        closedir(folder);
    return folder != NULL;
}

static bool is_own(const struct descendants *descendants, pid_t pid) {
    for (size_t i = 0; i < descendants->own_count; i++)
        if (descendants->own[i] == pid)
            return true;
    return false;
}

void descendants_replace(struct descendants *descendants, pid_t before, pid_t pid) {
    for (size_t i = 0; i < descendants->own_count; i++)
        if (descendants->own[i] == before)
            descendants->own[i] = pid;
}

void descendants_add_own(struct descendants *descendants, pid_t pid) {
    if (descendants->own_count < DESCENDANTS_OWN)
        descendants->own[descendants->own_count++] = pid;
}

static void note_own(void *context, const struct seen *child) {
    descendants_add_own(context, child->pid);
}

bool descendants_adopt(struct descendants *descendants) {
    descendants->own_count = 0;
    descendants->adopted = for_each_child(note_own, descendants) && prctl(PR_SET_CHILD_SUBREAPER, 1, 0, 0, 0) == 0;
    if (!descendants->adopted)
        report("--daemons: what the command leaves can't be waited for: %s", strerror(errno));
    return descendants->adopted;
}

struct count {
    const struct descendants *descendants;
    pid_t command;
    unsigned living, taken;
};

static void count_one(void *context, const struct seen *child) {
    struct count *count = context;
    if (is_own(count->descendants, child->pid) || child->pid == count->command)
        return;
    if (child->state == 'Z' && waitpid(child->pid, NULL, WNOHANG) == child->pid)
        count->taken++;
    else
        count->living++;
}

bool descendants_are_left(const struct descendants *descendants, pid_t command) {
    struct count count = {descendants, command, 0, 0};
    if (!descendants->adopted)
        return false;
    /* (one that ended while the others were looked at may have left children, which were not seen then) */
    do {
        count.living = count.taken = 0;
        for_each_child(count_one, &count);
    } while (count.taken > 0);
    return count.living > 0;
}

struct sending {
    const struct descendants *descendants;
    int number;
};

static void send_one(void *context, const struct seen *child) {
    const struct sending *sending = context;
    if (!is_own(sending->descendants, child->pid) && child->state != 'Z')
        kill(child->pid, sending->number);
}

void descendants_signal(const struct descendants *descendants, int number) {
    struct sending sending = {descendants, number};
    if (descendants->adopted)
        for_each_child(send_one, &sending);
}
