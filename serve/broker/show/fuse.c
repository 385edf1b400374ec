/* The tree as a file system, by libfuse3: its calls, and those of the tree that answer them. */
#define FUSE_USE_VERSION 31
#include <errno.h>
#include <fcntl.h>
#include <fuse.h>
#include <fuse_log.h>
#include <fuse_lowlevel.h>
#include <stdarg.h>
#include <stdint.h>
#include <stdio.h>
#include <stdlib.h>
#include <string.h>
#include <unistd.h>

#include "../broker.h"
#include "mount.h"

/* Files that all programs together have open in it, at most: a few pages of memory are kept for each. */
#define MOST_OPENED 4096

/* A file that a program has open: its text, as it was when it was last read from the start. */
struct opened {
    struct opened *next;
    size_t length;
    char text[TREE_TEXT];
};

static struct fuse *fuse;
static bool is_mounted;
static struct fuse_buf buffer;
static struct opened *all_opened;
static unsigned opened_count;
static char last_message[256];

const char *mount_missing(void) {
    return NULL;
}

static struct broker *broker_of_call(void) {
    return fuse_get_context()->private_data;
}

static int call_getattr(const char *path, struct stat *status, struct fuse_file_info *file) {
    (void)file;
    return -tree_stat(broker_of_call(), path, status);
}

static int call_readlink(const char *path, char *text, size_t size) {
    return -tree_readlink(broker_of_call(), path, text, size);
}

static int call_mkdir(const char *path, mode_t mode) {
    (void)mode;
    return -tree_mkdir(broker_of_call(), path);
}

/* After a call by which the last chip or device may have gone: where a new machine begins at once, it is there before
 * the program goes on. */
static int end_call(int result) {
    return renewal_look(broker_of_call()) ? result : -ENODEV;
}

static int call_rmdir(const char *path) {
    return end_call(-tree_rmdir(broker_of_call(), path));
}

/* No file is made, removed, moved or given another mode, owner or time in configfs and sysfs. */

static int call_create(const char *path, mode_t mode, struct fuse_file_info *file) {
    (void)path, (void)mode, (void)file;
    return -EACCES;
}

static int call_mknod(const char *path, mode_t mode, dev_t device) {
    (void)mode, (void)device;
    return -tree_refuse_file(broker_of_call(), path);
}

static int call_unlink(const char *path) {
    return -tree_refuse_file(broker_of_call(), path);
}

static int call_link(const char *from, const char *path) {
    (void)from;
    return -tree_refuse_file(broker_of_call(), path);
}

static int call_rename(const char *from, const char *path, unsigned flags) {
    (void)from, (void)flags;
    return -tree_refuse_file(broker_of_call(), path);
}

static int call_chmod(const char *path, mode_t mode, struct fuse_file_info *file) {
    (void)mode, (void)file;
    return -tree_refuse_file(broker_of_call(), path);
}

static int call_chown(const char *path, uid_t user, gid_t group, struct fuse_file_info *file) {
    (void)user, (void)group, (void)file;
    return -tree_refuse_file(broker_of_call(), path);
}

/* Truncating an attribute is allowed and does nothing: shells do so before they write. */
static int call_truncate(const char *path, off_t length, struct fuse_file_info *file) {
    struct stat status;
    (void)length, (void)file;
    return -tree_stat(broker_of_call(), path, &status);
}

static int call_open(const char *path, struct fuse_file_info *file) {
    struct stat status;
    int error = tree_stat(broker_of_call(), path, &status);
    if (error)
        return -error;
    /* (root may open any file by its mode, and is refused here as in sysfs) */
    if ((file->flags & O_ACCMODE) != O_RDONLY && !(status.st_mode & 0222))
        return -EACCES;
    struct opened *opened = opened_count < MOST_OPENED ? calloc(1, sizeof *opened) : NULL;
    if (!opened)
        return opened_count < MOST_OPENED ? -ENOMEM : -ENFILE;
    opened_count++;
    opened->next = all_opened;
    all_opened = opened;
    file->fh = (uintptr_t)opened;
    file->direct_io = 1;
    return 0;
}

static int call_release(const char *path, struct fuse_file_info *file) {
    struct opened **at = &all_opened, *opened = (struct opened *)(uintptr_t)file->fh;
    (void)path;
    while (*at && *at != opened)
        at = &(*at)->next;
    if (*at) {
        *at = opened->next;
        free(opened);
        opened_count--;
    }
    return 0;
}

static int call_read(const char *path, char *bytes, size_t size, off_t from, struct fuse_file_info *file) {
    struct opened *opened = (struct opened *)(uintptr_t)file->fh;
    if (from == 0) {
        int error = tree_read(broker_of_call(), path, opened->text);
        if (error)
            return -error;
        opened->length = strlen(opened->text);
    }
    if (from < 0 || (size_t)from >= opened->length)
        return 0;
    size_t length = opened->length - (size_t)from;
    if (length > size)
        length = size;
    memcpy(bytes, opened->text + from, length);
    return (int)length;
}

/* Wherever a write begins, its bytes are the whole value; more than a page is written in part, as in configfs. */
static int call_write(const char *path, const char *bytes, size_t length, off_t from, struct fuse_file_info *file) {
    (void)from, (void)file;
    if (length > TREE_TEXT - 1)
        length = TREE_TEXT - 1;
    int error = tree_write(broker_of_call(), path, bytes, length);
    return end_call(error ? -error : (int)length);
}

struct listing {
    void *to;
    fuse_fill_dir_t fill;
};

static void add_name(void *to, const char *name) {
    struct listing *listing = to;
    listing->fill(listing->to, name, NULL, 0, 0);
}

static int call_readdir(const char *path, void *to, fuse_fill_dir_t fill, off_t from, struct fuse_file_info *file,
    enum fuse_readdir_flags flags) {
    struct listing listing = {to, fill};
    (void)from, (void)file, (void)flags;
    add_name(&listing, ".");
    add_name(&listing, "..");
    return -tree_list(broker_of_call(), path, add_name, &listing);
}

/* The kernel keeps nothing of what it was answered: statements change the tree at any time. */
static void *call_init(struct fuse_conn_info *connection, struct fuse_config *config) {
    (void)connection;
    config->entry_timeout = config->attr_timeout = config->negative_timeout = 0;
    config->direct_io = 1;
    config->hard_remove = 1;
    return fuse_get_context()->private_data;
}

static const struct fuse_operations calls = {
    .init = call_init,
    .getattr = call_getattr,
    .readlink = call_readlink,
    .mkdir = call_mkdir,
    .rmdir = call_rmdir,
    .create = call_create,
    .mknod = call_mknod,
    .unlink = call_unlink,
    .symlink = call_link,
    .link = call_link,
    .rename = call_rename,
    .chmod = call_chmod,
    .chown = call_chown,
    .truncate = call_truncate,
    .open = call_open,
    .release = call_release,
    .read = call_read,
    .write = call_write,
    .readdir = call_readdir,
};

/* Keeps what the library says, for whoever reports it. */
__attribute__((format(printf, 2, 0))) static void keep_message(
    enum fuse_log_level level, const char *form, va_list values) {
    (void)level;
    vsnprintf(last_message, sizeof last_message, form, values);
    last_message[strcspn(last_message, "\n")] = 0;
}

int mount_begin(struct broker *broker, const char *folder, const char **why) {
    /* (other users than root reach it only through the system's own rights) */
    char *words[] = {"gpioserve", "-ofsname=gpio-sim,subtype=gpioserve,default_permissions", "-oallow_other", NULL};
    struct fuse_args arguments = FUSE_ARGS_INIT(geteuid() == 0 ? 3 : 2, words);
    *why = last_message;
    last_message[0] = 0;
    fuse_set_log_func(keep_message);
    fuse = fuse_new(&arguments, &calls, sizeof calls, broker);
    fuse_opt_free_args(&arguments);
    if (!fuse || fuse_mount(fuse, folder))
        return -1;
    is_mounted = true;
    int number = fuse_session_fd(fuse_get_session(fuse));
    /* (a request that its program took back after the loop saw it would leave the read waiting) */
    return fcntl(number, F_SETFL, O_NONBLOCK) == 0 ? number : -1;
}

bool mount_answer(struct broker *broker) {
    struct fuse_session *session = fuse_get_session(fuse);
    (void)broker;
    int got = fuse_session_receive_buf(session, &buffer);
    if (got > 0)
        fuse_session_process_buf(session, &buffer);
    return !fuse_session_exited(session);
}

pid_t mount_process(void) {
    return fuse_get_context()->pid;
}

void mount_end(void) {
    if (fuse && is_mounted)
        fuse_unmount(fuse);
    if (fuse)
        fuse_destroy(fuse);
    fuse = NULL;
    is_mounted = false;
    free(buffer.mem);
    buffer = (struct fuse_buf){0};
    while (all_opened) {
        struct opened *next = all_opened->next;
        free(all_opened);
        all_opened = next;
    }
    opened_count = 0;
}
