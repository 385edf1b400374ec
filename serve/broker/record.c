#include "record.h"

#include <string.h>
#include <sys/socket.h>

bool record_open(struct record *record, const char *transcript, const char *answers, const struct patience *patience) {
    record->transcript = record->answers = (struct output){.file = NULL};
    record->asker = record->shown = (struct asker){.pid = 0};
    return output_open(&record->transcript, transcript, patience) && output_open(&record->answers, answers, patience);
}

/* Reads the name of a process's program. A session has printable ASCII alone, in comments too, and a program may have
 * any bytes as its name. */
static void read_name(pid_t pid, char name[ASKER_NAME]) {
    char path[64];
    snprintf(path, sizeof path, "/proc/%ld/comm", (long)pid);
    FILE *file = fopen(path, "re");
    size_t length = file ? fread(name, 1, ASKER_NAME, file) : 0;
    if (file)
        fclose(file);
    if (length > 0)
        length--; /* (the line end) */
    for (size_t i = 0; i < length; i++)
        if (name[i] < ' ' || name[i] > '~')
            name[i] = '?';
    name[length] = 0;
    if (length == 0)
        strcpy(name, "?");
}

struct asker asker_of_process(pid_t pid) {
    struct asker asker = {.pid = pid};
    read_name(pid, asker.name);
    return asker;
}

struct asker asker_of(int connection) {
    struct ucred peer;
    socklen_t length = sizeof peer;
    struct asker asker = {.pid = 0};
    if (getsockopt(connection, SOL_SOCKET, SO_PEERCRED, &peer, &length) == 0)
        asker = asker_of_process(peer.pid);
    return asker;
}

/* The process of a thread; the thread itself where that can't be seen. */
static pid_t process_of(pid_t thread) {
    char path[64], line[64];
    long process = thread;
    snprintf(path, sizeof path, "/proc/%ld/status", (long)thread);
    FILE *file = fopen(path, "re");
    while (file && fgets(line, sizeof line, file) && sscanf(line, "Tgid: %ld", &process) != 1)
        continue;
    if (file)
        fclose(file);
    return (pid_t)process;
}

struct asker asker_of_thread(pid_t thread) {
    struct asker asker = {.pid = process_of(thread)};
    read_name(asker.pid, asker.name);
    return asker;
}

/* Says who asks from here on, where that isn't known yet. */
static void show_asker(struct record *record) {
    const struct asker *asker = &record->asker;
    if (asker->pid == 0 || (asker->pid == record->shown.pid && strcmp(asker->name, record->shown.name) == 0))
        return;
    fprintf(record->transcript.file, "# %ld %s\n", (long)asker->pid, asker->name);
    record->shown = *asker;
}

void record_line(struct record *record, const char *line, size_t length) {
    FILE *file = record->transcript.file;
    recent_add(&record->recent, &record->asker, line, length);
    if (!file)
        return;
    show_asker(record);
    fwrite(line, 1, length, file);
    fputc('\n', file);
}

void record_text(struct record *record, const char *text, size_t length) {
    recent_note_printed(&record->recent, text, length);
    if (record->answers.file)
        fwrite(text, 1, length, record->answers.file);
}

void record_flush(struct record *record) {
    output_flush(&record->transcript);
    output_flush(&record->answers);
}

bool record_close(struct record *record) {
    bool good = output_close(&record->transcript);
    return output_close(&record->answers) && good;
}
