#include "program.h"

#include <elf.h>
#include <fcntl.h>
#include <stdio.h>
#include <stdlib.h>
#include <string.h>
#include <sys/stat.h>
#include <unistd.h>

/* Scripts that are run by scripts are looked through so deep. */
#define MOST_SCRIPTS 4

bool program_find(const char *word, char path[PATH_MAX]) {
    const char *list = getenv("PATH");
    if (strchr(word, '/'))
        return snprintf(path, PATH_MAX, "%s", word) < PATH_MAX && access(path, F_OK) == 0;
    for (const char *at = list ? list : "/bin:/usr/bin"; at; at = strchr(at, ':'), at = at ? at + 1 : at) {
        int length = (int)strcspn(at, ":");
        if (snprintf(path, PATH_MAX, "%.*s%s%s", length, at, length ? "/" : "", word) < PATH_MAX &&
            access(path, X_OK) == 0)
            return true;
    }
    return false;
}

/* What a program's headers say. */
struct headers {
    bool has_interpreter, is_go;
    char interpreter[64];
};

/* Whether a segment of notes begins with one that the Go linker writes. */
static bool is_go_note(int file, const Elf64_Phdr *segment) {
    struct {
        Elf64_Nhdr head;
        char name[4];
    } note;
    return segment->p_type == PT_NOTE &&
           pread(file, &note, sizeof note, (off_t)segment->p_offset) == (ssize_t)sizeof note &&
           note.head.n_namesz == 4 && memcmp(note.name, "Go\0", 4) == 0;
}

static bool read_headers(int file, const Elf64_Ehdr *head, struct headers *headers) {
    memset(headers, 0, sizeof *headers);
    for (unsigned i = 0; i < head->e_phnum; i++) {
        Elf64_Phdr segment;
        off_t at = (off_t)(head->e_phoff + i * sizeof segment);
        if (head->e_phentsize != sizeof segment || pread(file, &segment, sizeof segment, at) != (ssize_t)sizeof segment)
            return false;
        headers->is_go = headers->is_go || is_go_note(file, &segment);
        if (segment.p_type != PT_INTERP)
            continue;
        headers->has_interpreter = true;
        ssize_t got = pread(file, headers->interpreter, sizeof headers->interpreter - 1, (off_t)segment.p_offset);
        headers->interpreter[got > 0 ? got : 0] = 0;
    }
    return true;
}

/* What stands in the way of the library in a program, or NULL. */
static const struct obstacle *obstacle_of(int file, const struct stat *status, const Elf64_Ehdr *head) {
    static const struct obstacle short_words = {"is a program of 32 bits", "build it for 64", true},
                                 is_static = {"is linked statically", "link it without -static", false},
                                 has_musl = {"is linked with musl", "build it with the GNU C library", false},
                                 is_go = {"is a Go program, which calls the kernel itself",
                                     "the library can't be in "
                                     "between",
                                     false},
                                 is_setuid = {"is setuid or setgid, for which nothing is preloaded",
                                     "run a copy of it, which isn't", false};
    struct headers headers;
    bool other = (status->st_mode & S_ISUID && status->st_uid != geteuid()) ||
                 (status->st_mode & S_ISGID && status->st_gid != getegid());
    if (head->e_ident[EI_CLASS] != ELFCLASS64)
        return &short_words;
    if (!read_headers(file, head, &headers))
        return NULL;
    if (!headers.has_interpreter)
        return &is_static;
    if (strstr(headers.interpreter, "musl"))
        return &has_musl;
    if (headers.is_go)
        return &is_go;
    return other ? &is_setuid : NULL;
}

/* The interpreter of a script, from its first line. False where it is none. */
static bool read_script(const char *head, size_t length, char path[PATH_MAX]) {
    size_t at = 2, end;
    if (length < 2 || memcmp(head, "#!", 2) != 0)
        return false;
    while (at < length && (head[at] == ' ' || head[at] == '\t'))
        at++;
    for (end = at; end < length && !strchr(" \t\n", head[end]); end++)
        continue;
    return end > at && snprintf(path, PATH_MAX, "%.*s", (int)(end - at), head + at) < PATH_MAX;
}

/* What stands in the way of a program, at that depth of scripts. */
static const struct obstacle *obstacle_at(char path[PATH_MAX], int depth) {
    union {
        Elf64_Ehdr elf;
        char text[256];
    } head;
    struct stat status;
    const struct obstacle *found = NULL;
    int file = open(path, O_RDONLY | O_CLOEXEC);
    if (file < 0)
        return NULL; /* whoever starts it says what is wrong */
    memset(&head, 0, sizeof head);
    ssize_t got = read(file, &head, sizeof head);
    if (fstat(file, &status) == 0 && got >= (ssize_t)sizeof head.elf && memcmp(head.elf.e_ident, ELFMAG, SELFMAG) == 0)
        found = obstacle_of(file, &status, &head.elf);
    close(file);
    if (!found && got > 0 && depth < MOST_SCRIPTS && read_script(head.text, (size_t)got, path))
        return obstacle_at(path, depth + 1);
    return found;
}

const struct obstacle *program_obstacle(char path[PATH_MAX]) {
    return obstacle_at(path, 0);
}
