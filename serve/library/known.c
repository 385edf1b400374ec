#include "known.h"

#include <errno.h>
#include <fcntl.h>
#include <linux/magic.h>
#include <stdint.h>
#include <sys/stat.h>
#include <sys/statfs.h>
#include <sys/syscall.h>
#include <unistd.h>

#include "ask.h"
#include "flags.h"

/* What is known of pipes, each at the place of its number. An entry is one word, so that threads need no lock: the
 * pipe's number, and in the last byte 0 for nothing, 1 for a pipe of others, 2 for a request, and from 3 on a chip's
 * number. An entry that another one takes the place of is asked for again. */
#define PLACES 4096
static uint64_t places[PLACES];

enum { UNKNOWN, OTHERS, REQUEST, CHIP };

static void keep(ino_t ino, unsigned what) {
    __atomic_store_n(&places[ino % PLACES], (uint64_t)ino << 8 | what, __ATOMIC_RELAXED);
}

static unsigned look_up(ino_t ino) {
    uint64_t entry = __atomic_load_n(&places[ino % PLACES], __ATOMIC_RELAXED);
    return entry >> 8 == ino ? entry & 0xff : UNKNOWN;
}

/* Pipes of others have no mark, and are never asked about. (One with a mark is taken for the broker's where nobody
 * answers: what stands in its pipe is nothing for the program.) */
static unsigned ask_for(int file, ino_t ino) {
    struct question question = {.op = WIRE_WHOSE, .ino = ino};
    struct answer answer = {.found = -1};
    if (flags_are_kept(file) && ask(&question, NULL, &answer, NULL, 0, NULL, true))
        return REQUEST;
    unsigned what = answer.found < 0                               ? OTHERS
                    : answer.chip == 0 || answer.chip > WIRE_CHIPS ? REQUEST
                                                                   : CHIP + answer.chip - 1;
    keep(ino, what);
    return what;
}

/* Whether a FIFO stands where pipes do, and not in a file system by a name: its number says nothing then. All pipes
 * have one device number, which is kept once it is known. */
static bool is_unnamed(int file, dev_t device) {
    static dev_t of_pipes;
    struct statfs system;
    if (device == __atomic_load_n(&of_pipes, __ATOMIC_RELAXED))
        return true;
    if (syscall(SYS_fstatfs, file, &system) || system.f_type != PIPEFS_MAGIC)
        return false;
    __atomic_store_n(&of_pipes, device, __ATOMIC_RELAXED);
    return true;
}

/* The number of the pipe that a file is; 0 where it is none. */
static ino_t pipe_of(int file) {
    struct stat status;
    int kept = errno;
    bool is_pipe = syscall(SYS_newfstatat, file, "", &status, AT_EMPTY_PATH) == 0 && S_ISFIFO(status.st_mode) &&
                   is_unnamed(file, status.st_dev);
    errno = kept;
    return is_pipe ? status.st_ino : 0;
}

struct known known_file(int file) {
    struct known known = {.ours = false, .chip = -1};
    if (!ask_home())
        return known;
    known.ino = pipe_of(file);
    if (known.ino == 0)
        return known;
    unsigned what = look_up(known.ino);
    if (what == UNKNOWN)
        what = ask_for(file, known.ino);
    known.ours = what != OTHERS;
    known.chip = what >= CHIP ? (int)(what - CHIP) : -1;
    return known;
}

void known_keep(int file, int chip) {
    ino_t ino = pipe_of(file);
    if (ino != 0)
        keep(ino, chip < 0 ? REQUEST : CHIP + (unsigned)chip);
}
