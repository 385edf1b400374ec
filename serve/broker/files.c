#include "files.h"

#include <errno.h>
#include <fcntl.h>
#include <stdio.h>
#include <stdlib.h>
#include <string.h>
#include <sys/ioctl.h>
#include <sys/stat.h>
#include <unistd.h>

#include "../wire.h"
#include "room.h"
#include "spare.h"

/* Bytes that stand in a pipe at most. */
#define MOST_MARKS 1024
/* Numbers in names go up to this one, and then begin again: a name has at most 15 bytes. */
#define MOST_NUMBER 9999999u

/* How names begin: by the kind of the file, and last the chips' files of waves.c and observers.c. */
static const char *const kinds[] = {[FILE_CHIP] = "chip.",
    [FILE_LINES] = "lines.",
    [FILE_HANDLE1] = "handle.",
    [FILE_EVENT1] = "event.",
    "waves.",
    FILES_OBSERVED};

const struct file *files_request_of(const struct files *files, unsigned chip, uint32_t line) {
    for (const struct file *file = files->first; file; file = file->next) {
        if (file->chip != chip || files_is_gone(file))
            continue;
        for (size_t i = 0; i < file->line_count; i++)
            if (file->lines[i] == line)
                return file;
    }
    return NULL;
}

bool files_is_name(const char *word, size_t length) {
    for (size_t i = 0; i < sizeof kinds / sizeof *kinds; i++) {
        size_t front = strlen(kinds[i]);
        if (length > front && memcmp(word, kinds[i], front) == 0 &&
            strspn(word + front, "0123456789") >= length - front)
            return true;
    }
    return false;
}

static bool make_pipe(int ends[2], uint64_t *ino) {
    struct stat status;
    if (pipe2(ends, O_CLOEXEC))
        return false;
    if (fstat(ends[0], &status) == 0 && fcntl(ends[0], F_SETFL, WIRE_READS) == 0 &&
        fcntl(ends[1], F_SETFL, O_NONBLOCK) == 0) {
        *ino = status.st_ino;
        return true;
    }
    int error = errno;
    close(ends[0]);
    close(ends[1]);
    errno = error;
    return false;
}

static bool is_named(const struct files *files, const char *name) {
    for (const struct file *file = files->first; file; file = file->next)
        if (strcmp(file->name, name) == 0)
            return true;
    return false;
}

/* Gives a file a name that no other one has. */
static void name_file(struct files *files, struct file *file) {
    char name[sizeof file->name];
    do {
        files->made = files->made % MOST_NUMBER + 1;
        snprintf(name, sizeof name, "%s%u", kinds[file->kind], files->made);
    } while (is_named(files, name));
    memcpy(file->name, name, sizeof name);
}

struct file *files_make(struct files *files, enum file_kind kind, unsigned chip, int *reader) {
    int ends[2];
    uint64_t ino;
    if (!make_pipe(ends, &ino))
        return NULL;
    struct file *file = room_new(sizeof *file);
    file->watch = (struct watch){WATCH_FILE, ends[1], file};
    file->ino = ino;
    file->kind = kind;
    file->chip = chip;
    name_file(files, file);
    file->next = files->first;
    files->first = file;
    files->open++;
    *reader = ends[0];
    return file;
}

struct file *files_find(const struct files *files, uint64_t ino) {
    for (struct file *file = files->first; file; file = file->next)
        if (file->ino == ino)
            return file;
    return NULL;
}

bool files_is_gone(const struct file *file) {
    return file->watch.number < 0;
}

static void close_end(struct files *files, struct file *file) {
    if (files_is_gone(file))
        return;
    close(file->watch.number);
    file->watch.number = -1;
    files->open--;
}

static void forget_look(struct files *files, struct file *file) {
    if (file->look != LOOK_NONE)
        files->touched--;
    file->look = LOOK_NONE;
}

void files_drop(struct files *files, struct file *file) {
    struct file **at = &files->first;
    forget_look(files, file);
    while (*at && *at != file)
        at = &(*at)->next;
    if (*at)
        *at = file->next;
    close_end(files, file);
    free(file->moved);
    free(file);
}

void files_hang_up(struct files *files, struct file *file) {
    if (files_is_gone(file))
        return;
    files_show(file, false, false);
    forget_look(files, file);
    close_end(files, file);
    file->awaits = false;
}

void files_watch(struct file *file, uint32_t line, bool watched) {
    if (line >= UAPI_CHIP_LINES)
        return;
    if (watched)
        file->watched[line / 64] |= UINT64_C(1) << line % 64;
    else
        file->watched[line / 64] &= ~(UINT64_C(1) << line % 64);
}

bool files_is_watched(const struct file *file, uint32_t line) {
    return line < UAPI_CHIP_LINES && (file->watched[line / 64] >> line % 64 & 1);
}

struct file *files_next_touched(struct files *files, enum file_look *look) {
    struct file *file = files->touched > 0 ? files->first : NULL;
    while (file && file->look == LOOK_NONE)
        file = file->next;
    if (!file)
        return NULL;
    *look = file->look;
    forget_look(files, file);
    return file;
}

static int marks_of(const struct file *file) {
    int marks = 0;
    return ioctl(file->watch.number, FIONREAD, &marks) ? 0 : marks;
}

/* Takes bytes out of the pipe by a reading end of its own for that moment. Whether there could be one. */
static bool take_by_end(const struct file *file, int marks) {
    char path[64], bytes[MOST_MARKS];
    snprintf(path, sizeof path, "/proc/self/fd/%d", file->watch.number);
    int end = open(path, O_RDONLY | O_NONBLOCK | O_CLOEXEC);
    if (end < 0)
        return false;
    while (marks > 0) {
        ssize_t got = read(end, bytes, (size_t)marks < sizeof bytes ? (size_t)marks : sizeof bytes);
        if (got <= 0)
            break;
        marks -= (int)got;
    }
    close(end);
    return true;
}

/* Takes so many bytes out of the pipe, by the spare number where no other one is left: a reader would find the file
 * ready and nothing to read, again and again. */
static void take_marks(const struct file *file, int marks) {
    if (take_by_end(file, marks) || !spare_is_wanted(errno))
        return;
    spare_lend();
    take_by_end(file, marks);
    spare_take();
}

void files_show(struct file *file, bool readable, bool again) {
    if (files_is_gone(file))
        return;
    int marks = marks_of(file);
    if (!readable && marks > 0)
        take_marks(file, marks);
    if (!readable || (marks > 0 && !again))
        return;
    if (marks >= MOST_MARKS)
        take_marks(file, marks - 1); /* (never all: the file is to show something all the time) */
    if (write(file->watch.number, "!", 1) < 0)
        return; /* the pipe is full, or its readers are gone, which the loop sees */
}

bool files_shows(const struct file *file) {
    return !files_is_gone(file) && marks_of(file) > 0;
}

void files_free(struct files *files) {
    while (files->first)
        files_drop(files, files->first);
}
