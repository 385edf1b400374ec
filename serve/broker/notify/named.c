#include "named.h"

#include <errno.h>
#include <fcntl.h>
#include <linux/openat2.h>
#include <stdint.h>
#include <string.h>
#include <sys/syscall.h>
#include <sys/sysmacros.h>
#include <unistd.h>

#include "../../wire.h"
#include "changing.h"

/* What chips are: devices, which their user and group may read and write. */
#define CHIP_MODE (S_IFCHR | 0660)
/* Flags of an opening that would make or empty a file. */
#define MAKING_FLAGS (O_CREAT | O_EXCL | O_TRUNC)

/* Reads the flags of openat2, of which there are more than of the others. False where they can't be read, or are none
 * that there are: then the kernel says so. */
static bool read_structure(struct named *named, const struct call *call) {
    struct open_how how;
    int place = named->operation->flags;
    /* (the argument behind the structure is its size) */
    if (call_argument(call, place + 1) < sizeof how ||
        call_read(call, call_argument(call, place), &how, sizeof how) != (ssize_t)sizeof how || how.flags > UINT32_MAX)
        return false;
    named->flags = (int)how.flags;
    named->stays_below = how.resolve & (RESOLVE_BENEATH | RESOLVE_IN_ROOT);
    return true;
}

/* Reads the flags of a call. */
static bool read_flags(struct named *named, const struct call *call) {
    const struct operation *operation = named->operation;
    named->stays_below = false;
    if (operation->number == SYS_openat2)
        return read_structure(named, call);
    named->flags = operation->flags == OPERATION_NONE ? operation->fixed : (int)call_argument(call, operation->flags);
    return true;
}

/* Whether a name that has to stay below its folder may leave it, which is the kernel's to refuse. */
static bool leaves_folder(const struct named *named) {
    return named->stays_below && (*named->name == '/' || strstr(named->name, ".."));
}

/* Whether an opening is to make a file that isn't there yet. */
static bool makes_file(const struct named *named) {
    return named->operation->kind == OPERATION_OPEN && (named->flags & O_CREAT) && (named->flags & O_EXCL);
}

static bool follows(const struct named *named) {
    bool opens = named->operation->kind == OPERATION_OPEN;
    return !(named->flags & (opens ? O_NOFOLLOW : AT_SYMLINK_NOFOLLOW)) && !makes_file(named);
}

/* The folder /dev is the system's, and is opened in the broker's folder so that the chips are listed in it. */
static bool is_taken_over(const struct named *named) {
    return !named->found.is_dev || named->operation->kind == OPERATION_OPEN;
}

/* Reads the first name. No name at all is an empty one, where that means an open file itself. */
static bool read_name(struct named *named, const struct call *call) {
    uint64_t from = call_argument(call, named->operation->name);
    *named->name = 0;
    return (from == 0 && (named->flags & AT_EMPTY_PATH) && named->operation->kind != OPERATION_OPEN) ||
           call_read_name(call, from, named->name, sizeof named->name) == 0;
}

/* The place of the open folder that the second name is relative to. */
static int second_folder(const struct operation *operation) {
    return operation->folder == OPERATION_NONE ? OPERATION_NONE : operation->detail - 1;
}

static int folder_of(const struct call *call, int argument) {
    return argument == OPERATION_NONE ? AT_FDCWD : (int)call_argument(call, argument);
}

/* Looks where the names lead. */
static void look(struct named *named) {
    lookup_name(&named->found, &named->from, named->name, follows(named));
    named->found.ours = named->found.ours && is_taken_over(named);
    if (named->operation->kind != OPERATION_MOVE)
        return;
    lookup_name(&named->second, &named->second_from, named->second_name, false);
    named->second.ours = named->second.ours && !named->second.is_dev;
    if (named->second_error)
        named->second.error = named->second_error;
}

bool named_read(struct named *named, const struct call *call, const char *home, bool shows_tree) {
    const struct operation *operation = operation_of(call->notification.data.nr);
    named->operation = operation;
    if (!operation || !read_flags(named, call) || !read_name(named, call) || leaves_folder(named))
        return false;
    named->from =
        (struct lookup_from){home, (pid_t)call->notification.pid, folder_of(call, operation->folder), shows_tree};
    if (operation->kind == OPERATION_MOVE) {
        named->second_from = named->from;
        named->second_from.folder = folder_of(call, second_folder(operation));
        named->second_error =
            call_read_name(call, call_argument(call, operation->detail), named->second_name, PATH_MAX);
        if (named->second_error)
            *named->second_name = 0;
    }
    look(named);
    return true;
}

bool named_needs_tree(const struct named *named, enum wire_tree *need) {
    bool is_used = named->found.is_tree || (named->operation->kind == OPERATION_MOVE && named->second.is_tree);
    *need = is_used ? WIRE_TREE_USES : WIRE_TREE_SEARCHES;
    bool lists = named->operation->kind == OPERATION_OPEN && (named->flags & O_DIRECTORY);
    return !named->from.shows_tree && (is_used || (named->found.is_shared && lists));
}

void named_look_in_tree(struct named *named) {
    named->from.shows_tree = named->second_from.shows_tree = true;
    look(named);
}

bool named_is_ours(const struct named *named) {
    return named->found.ours || (named->operation->kind == OPERATION_MOVE && named->second.ours);
}

bool named_opens_chip(const struct named *named) {
    return named->operation->kind == OPERATION_OPEN && named->found.chip >= 0 &&
           !(named->flags & (O_PATH | O_DIRECTORY)) && !makes_file(named);
}

void named_show_chip(struct stat *status, unsigned chip) {
    status->st_mode = CHIP_MODE;
    status->st_rdev = makedev(WIRE_MAJOR, chip);
    status->st_size = 0;
    status->st_blocks = 0;
}

void named_show_chip_extended(struct statx *status, unsigned chip) {
    status->stx_mode = CHIP_MODE;
    status->stx_rdev_major = WIRE_MAJOR;
    status->stx_rdev_minor = chip;
    status->stx_size = 0;
    status->stx_blocks = 0;
}

static void answer_open(const struct named *named, struct call *call) {
    int flags = named->flags;
    /* (nothing is made in the broker's folder; what gpio-sim's file system refuses, it refuses itself) */
    if (!named->found.in_view && makes_file(named)) {
        call_fail(call, faccessat(AT_FDCWD, named->found.path, F_OK, AT_SYMLINK_NOFOLLOW) ? ENOENT : EEXIST);
        return;
    }
    if (!named->found.in_view)
        flags &= ~MAKING_FLAGS;
    if (!named->found.in_view && !named->found.is_dev && (flags & O_TMPFILE) == O_TMPFILE) {
        call_fail(call, EOPNOTSUPP);
        return;
    }
    int file = open(named->found.path, flags | O_CLOEXEC, 0);
    if (file < 0) {
        call_fail(call, errno);
        return;
    }
    call_return_file(call, file, named->flags);
    close(file);
}

static void answer_status(const struct named *named, struct call *call) {
    struct stat status;
    if (fstatat(AT_FDCWD, named->found.path, &status, named->flags)) {
        call_fail(call, errno);
        return;
    }
    if (named->found.chip >= 0)
        named_show_chip(&status, (unsigned)named->found.chip);
    call_return_bytes(call, call_argument(call, named->operation->detail), &status, sizeof status);
}

static void answer_status_extended(const struct named *named, struct call *call) {
    /* (the argument behind the flags is the mask) */
    unsigned mask = (unsigned)call_argument(call, named->operation->flags + 1);
    struct statx status;
    if (statx(AT_FDCWD, named->found.path, named->flags, mask, &status)) {
        call_fail(call, errno);
        return;
    }
    if (named->found.chip >= 0)
        named_show_chip_extended(&status, (unsigned)named->found.chip);
    call_return_bytes(call, call_argument(call, named->operation->detail), &status, sizeof status);
}

static void answer_access(const struct named *named, struct call *call) {
    int mode = (int)call_argument(call, named->operation->detail);
    if (faccessat(AT_FDCWD, named->found.path, mode, named->flags))
        call_fail(call, errno);
    else
        call_return(call, 0);
}

/* The text of a link, without the broker's folder; as much of it as the program has room for. */
static void answer_link(const struct named *named, struct call *call) {
    char text[PATH_MAX];
    /* (the argument behind the memory is its size) */
    int size = (int)call_argument(call, named->operation->detail + 1);
    ssize_t length = size > 0 ? readlink(named->found.path, text, sizeof text - 1) : -1;
    if (length < 0) {
        call_fail(call, size > 0 ? errno : EINVAL);
        return;
    }
    text[length] = 0;
    lookup_hide_home(named->from.home, text);
    length = (ssize_t)strlen(text);
    if (length > size)
        length = size;
    if (call_write(call, call_argument(call, named->operation->detail), text, (size_t)length))
        call_return(call, length);
    else
        call_fail(call, EFAULT);
}

/* Names of the broker's have no extended attributes. */
static void answer_attributes(const struct named *named, struct call *call) {
    if (faccessat(AT_FDCWD, named->found.path, F_OK, AT_SYMLINK_NOFOLLOW))
        call_fail(call, errno);
    else if (named->operation->kind == OPERATION_ATTRIBUTE)
        call_fail(call, ENODATA);
    else
        call_return(call, 0);
}

void named_answer(const struct named *named, struct call *call) {
    if (named->found.error) {
        call_fail(call, named->found.error);
        return;
    }
    switch (named->operation->kind) {
    case OPERATION_OPEN:
        answer_open(named, call);
        break;
    case OPERATION_STATUS:
        answer_status(named, call);
        break;
    case OPERATION_STATUS_EXTENDED:
        answer_status_extended(named, call);
        break;
    case OPERATION_ACCESS:
        answer_access(named, call);
        break;
    case OPERATION_LINK:
        answer_link(named, call);
        break;
    case OPERATION_ATTRIBUTE:
    case OPERATION_ATTRIBUTES:
        answer_attributes(named, call);
        break;
    case OPERATION_MAKE:
    case OPERATION_CHANGE:
        changing_answer(named, call);
        break;
    case OPERATION_MOVE:
        changing_answer_move(named, call);
        break;
    }
}
