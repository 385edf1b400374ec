#include "version.h"

#include <fcntl.h>
#include <limits.h>
#include <stdbool.h>
#include <stdio.h>
#include <string.h>
#include <unistd.h>

#include "process.h"

/* Digits of a sum. */
#define SUM_LENGTH 64
/* The most bytes of a line of a record that are looked at, with the zero byte. */
#define LINE_ROOM 160

/* What a record says: whole lines, without their ends. launcher/program.sh has its form. */
struct record_head {
    char program[LINE_ROOM], proved[LINE_ROOM], toolchain[LINE_ROOM], sources[LINE_ROOM], sum[LINE_ROOM];
};

/* Reads a line that begins so. False where it doesn't, or where it is too long. */
static bool read_line(FILE *file, const char *begins, char line[LINE_ROOM]) {
    if (!fgets(line, LINE_ROOM, file) || strncmp(line, begins, strlen(begins)) != 0)
        return false;
    char *end = strchr(line, '\n');
    if (!end)
        return false;
    *end = 0;
    return true;
}

/* Reads the record beside a program. False where there is none. */
static bool read_head(const char *served, struct record_head *head) {
    char path[PATH_MAX];
    if (snprintf(path, sizeof path, "%s.record", served) >= PATH_MAX)
        return false;
    FILE *file = fopen(path, "re");
    if (!file)
        return false;
    bool is_read = read_line(file, "program: ", head->program) && read_line(file, "proved: ", head->proved) &&
                   read_line(file, "toolchain: ", head->toolchain) && read_line(file, "sources: ", head->sources) &&
                   read_line(file, "sum: ", head->sum);
    fclose(file);
    return is_read;
}

/* Reads the sum from the program that computes it, up to its end. */
static bool read_sum(int from, char sum[SUM_LENGTH + 1]) {
    size_t length = 0;
    char rest[LINE_ROOM];
    ssize_t got;
    while (length < SUM_LENGTH && (got = read(from, sum + length, SUM_LENGTH - length)) > 0)
        length += (size_t)got;
    sum[length] = 0;
    while (read(from, rest, sizeof rest) > 0)
        continue;
    return length == SUM_LENGTH;
}

/* The SHA-256 sum of a program, by the command sha256sum. False where it can't be computed. */
static bool sum_of(const char *served, char sum[SUM_LENGTH + 1]) {
    char name[] = "sha256sum", *words[] = {name, NULL};
    int ends[2];
    pid_t pid;
    int program = open(served, O_RDONLY | O_CLOEXEC);
    if (program < 0)
        return false;
    if (pipe2(ends, O_CLOEXEC)) {
        close(program);
        return false;
    }
    bool is_started = process_start(&pid, words, program, ends[1], NULL) == 0;
    close(program);
    close(ends[1]);
    bool is_read = is_started && read_sum(ends[0], sum);
    close(ends[0]);
    return is_started && process_wait(pid, true) == 0 && is_read;
}

void version_print(const char *served) {
    struct record_head head;
    char sum[SUM_LENGTH + 1];
    printf("gpioserve " GPIOSERVE_VERSION ", commit " GPIOSERVE_COMMIT "\n");
    if (!served) {
        puts("no program that answers is there");
        return;
    }
    printf("answered by: %s\n", served);
    if (read_head(served, &head) && sum_of(served, sum) && strcmp(head.sum + strlen("sum: "), sum) == 0)
        printf("%s\n%s\n%s\n", head.proved, head.toolchain, head.sources);
    else
        puts("proved: not known, since no record beside it has its sum");
}
