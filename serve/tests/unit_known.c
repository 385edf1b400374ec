/* Which files the library takes for the broker's, where a broker would call every pipe its own. */
#include <fcntl.h>
#include <stdio.h>
#include <stdlib.h>
#include <sys/stat.h>
#include <unistd.h>

#include "../library/ask.h"
#include "../library/flags.h"
#include "../library/known.h"
#include "units.h"

static unsigned asked;
static bool marked;

const char *ask_home(void) {
    return "/nowhere";
}

int ask(const struct question *question, const void *sent, struct answer *answer, void *got, size_t room, int *file,
    bool cloexec) {
    (void)question, (void)sent, (void)got, (void)room, (void)file, (void)cloexec;
    *answer = (struct answer){.chip = 1};
    asked++;
    return 0;
}

bool flags_are_kept(int file) {
    (void)file;
    return marked;
}

void test_known(void) {
    char folder[] = "/tmp/gpioserve-units.XXXXXX", path[64];
    int ends[2], others[2];
    if (!mkdtemp(folder) || pipe(ends) || pipe(others)) {
        count(0, "a folder and a pipe");
        return;
    }
    snprintf(path, sizeof path, "%s/fifo", folder);
    int named = mkfifo(path, 0600) ? -1 : open(path, O_RDONLY | O_NONBLOCK);
    marked = true;
    count(named >= 0 && !known_file(named).ours && asked == 0,
        "a FIFO that has a name is nobody's chip, and not asked about");
    known_keep(named, 0);
    count(!known_file(named).ours && asked == 0, "also where its number is that of a chip's pipe");
    marked = false;
    count(!known_file(others[0]).ours && asked == 0, "a pipe without a mark is nobody's chip, and not asked about");
    marked = true;
    struct known known = known_file(ends[0]);
    count(known.ours && known.chip == 0 && asked == 1, "a pipe with a mark is what the broker says");
    known_file(ends[0]);
    count(asked == 1, "and is asked for once");
    close(named);
    close(ends[0]);
    close(ends[1]);
    close(others[0]);
    close(others[1]);
    unlink(path);
    rmdir(folder);
}
