#include "changing.h"

#include <errno.h>
#include <fcntl.h>
#include <stdio.h>
#include <string.h>
#include <sys/syscall.h>
#include <unistd.h>

/* The arguments of a system call. */
#define ARGUMENTS 6
/* Where symlink and symlinkat have the text of the link. It stands in the program's memory, and no link is made. */
#define LINK_TEXT_ARGUMENT 0
static const char link_text[] = "gpio-sim";

static bool ends_with_parent(const char *name) {
    size_t length = strlen(name);
    while (length > 0 && name[length - 1] == '/')
        length--;
    return length >= 2 && name[length - 1] == '.' && name[length - 2] == '.' &&
           (length == 2 || name[length - 3] == '/');
}

static bool removes_folder(const struct named *named, const struct call *call) {
    int number = named->operation->number;
#ifdef SYS_rmdir
    if (number == SYS_rmdir)
        return true;
#endif
    return number == SYS_unlinkat && (call_argument(call, 2) & AT_REMOVEDIR);
}

/* Does a call with another name in the place of each of its own. All its other arguments are numbers. */
static void do_call(const struct named *named, struct call *call, const char *second) {
    const struct operation *operation = named->operation;
    uint64_t words[ARGUMENTS];
    for (int i = 0; i < ARGUMENTS; i++)
        words[i] = call_argument(call, i);
    if (operation->folder != OPERATION_NONE)
        words[operation->folder] = (uint64_t)AT_FDCWD;
    words[operation->name] = (uintptr_t)named->found.path;
    if (second) {
        words[operation->detail] = (uintptr_t)second;
        if (operation->folder != OPERATION_NONE)
            words[operation->detail - 1] = (uint64_t)AT_FDCWD;
    } else if (operation->kind == OPERATION_MAKE && operation->name > LINK_TEXT_ARGUMENT &&
               operation->folder != LINK_TEXT_ARGUMENT) {
        words[LINK_TEXT_ARGUMENT] = (uintptr_t)link_text;
    }
    if (syscall(operation->number, words[0], words[1], words[2], words[3], words[4], words[5]))
        call_fail(call, errno);
    else
        call_return(call, 0);
}

/* Refuses a change of the broker's names as sysfs does. */
static void refuse(const struct named *named, struct call *call) {
    char folder[PATH_MAX];
    const char *path = named->found.path;
    bool makes = named->operation->kind == OPERATION_MAKE;
    bool is_there = faccessat(AT_FDCWD, path, F_OK, AT_SYMLINK_NOFOLLOW) == 0;
    int error = is_there && makes ? EEXIST : is_there ? EPERM : errno;
    if (!is_there && makes && error == ENOENT && snprintf(folder, sizeof folder, "%s", path) < (int)sizeof folder) {
        *strrchr(folder, '/') = 0;
        error = faccessat(AT_FDCWD, folder, F_OK, 0) ? errno : EPERM;
    }
    call_fail(call, error);
}

void changing_answer(const struct named *named, struct call *call) {
    if (!named->found.in_view)
        refuse(named, call);
    else if (removes_folder(named, call) && ends_with_parent(named->name))
        call_fail(call, ENOTEMPTY);
    else
        do_call(named, call, NULL);
}

/* What isn't the broker's is in another file system. */
void changing_answer_move(const struct named *named, struct call *call) {
    if (named->found.error || named->second.error)
        call_fail(call, named->found.error ? named->found.error : named->second.error);
    else if (!named->found.ours || !named->second.ours)
        call_fail(call, EXDEV);
    else if (!named->found.in_view || !named->second.in_view)
        refuse(named, call);
    else
        do_call(named, call, named->second.path);
}
