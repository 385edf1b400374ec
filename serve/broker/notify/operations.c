#include "operations.h"

#include <fcntl.h>
#include <sys/syscall.h>

#define HERE OPERATION_NONE
#define NONE OPERATION_NONE
/* A link at the end of the name is what the call is about. */
#define LINK AT_SYMLINK_NOFOLLOW

const struct operation operations[] = {
    {SYS_openat, OPERATION_OPEN, 0, 1, 2, 0, NONE},
    {SYS_newfstatat, OPERATION_STATUS, 0, 1, 3, 0, 2},
    {SYS_statx, OPERATION_STATUS_EXTENDED, 0, 1, 2, 0, 4},
    {SYS_readlinkat, OPERATION_LINK, 0, 1, NONE, AT_SYMLINK_NOFOLLOW, 2},
    {SYS_faccessat, OPERATION_ACCESS, 0, 1, NONE, 0, 2},
    {SYS_faccessat2, OPERATION_ACCESS, 0, 1, 3, 0, 2},
    {SYS_openat2, OPERATION_OPEN, 0, 1, 2, 0, NONE},
#ifdef SYS_open
    {SYS_open, OPERATION_OPEN, HERE, 0, 1, 0, NONE},
    {SYS_creat, OPERATION_OPEN, HERE, 0, NONE, O_WRONLY | O_CREAT | O_TRUNC, NONE},
    {SYS_stat, OPERATION_STATUS, HERE, 0, NONE, 0, 1},
    {SYS_lstat, OPERATION_STATUS, HERE, 0, NONE, AT_SYMLINK_NOFOLLOW, 1},
    {SYS_access, OPERATION_ACCESS, HERE, 0, NONE, 0, 1},
    {SYS_readlink, OPERATION_LINK, HERE, 0, NONE, AT_SYMLINK_NOFOLLOW, 1},
#endif
    {SYS_getxattr, OPERATION_ATTRIBUTE, HERE, 0, NONE, 0, 2},
    {SYS_lgetxattr, OPERATION_ATTRIBUTE, HERE, 0, NONE, AT_SYMLINK_NOFOLLOW, 2},
    {SYS_listxattr, OPERATION_ATTRIBUTES, HERE, 0, NONE, 0, 1},
    {SYS_llistxattr, OPERATION_ATTRIBUTES, HERE, 0, NONE, AT_SYMLINK_NOFOLLOW, 1},
    {SYS_mkdirat, OPERATION_MAKE, 0, 1, NONE, LINK, NONE},
    {SYS_mknodat, OPERATION_MAKE, 0, 1, NONE, LINK, NONE},
    {SYS_symlinkat, OPERATION_MAKE, 1, 2, NONE, LINK, NONE},
    {SYS_unlinkat, OPERATION_CHANGE, 0, 1, NONE, LINK, NONE},
    {SYS_fchmodat, OPERATION_CHANGE, 0, 1, NONE, 0, NONE},
    {SYS_fchownat, OPERATION_CHANGE, 0, 1, 4, 0, NONE},
    {SYS_truncate, OPERATION_CHANGE, HERE, 0, NONE, 0, NONE},
    {SYS_renameat2, OPERATION_MOVE, 0, 1, NONE, LINK, 3},
    {SYS_linkat, OPERATION_MOVE, 0, 1, NONE, LINK, 3},
#ifdef SYS_renameat
    {SYS_renameat, OPERATION_MOVE, 0, 1, NONE, LINK, 3},
#endif
#ifdef SYS_open
    {SYS_mkdir, OPERATION_MAKE, HERE, 0, NONE, LINK, NONE},
    {SYS_mknod, OPERATION_MAKE, HERE, 0, NONE, LINK, NONE},
    {SYS_symlink, OPERATION_MAKE, HERE, 1, NONE, LINK, NONE},
    {SYS_rmdir, OPERATION_CHANGE, HERE, 0, NONE, LINK, NONE},
    {SYS_unlink, OPERATION_CHANGE, HERE, 0, NONE, LINK, NONE},
    {SYS_chmod, OPERATION_CHANGE, HERE, 0, NONE, 0, NONE},
    {SYS_chown, OPERATION_CHANGE, HERE, 0, NONE, 0, NONE},
    {SYS_lchown, OPERATION_CHANGE, HERE, 0, NONE, LINK, NONE},
    {SYS_rename, OPERATION_MOVE, HERE, 0, NONE, LINK, 1},
    {SYS_link, OPERATION_MOVE, HERE, 0, NONE, LINK, 1},
#endif
};

const size_t operations_count = sizeof operations / sizeof *operations;

const struct operation *operation_of(int number) {
    for (size_t i = 0; i < operations_count; i++)
        if (operations[i].number == number)
            return &operations[i];
    return NULL;
}
