#include "show.h"

#include <errno.h>
#include <limits.h>
#include <sched.h>
#include <stdio.h>
#include <stdlib.h>
#include <string.h>
#include <sys/epoll.h>
#include <sys/mount.h>
#include <sys/stat.h>
#include <unistd.h>

#include "../broker.h"
#include "../report.h"
#include "../turn.h"
#include "module.h"
#include "mount.h"

#define DEVICE "/dev/fuse"
#define HELPER "fusermount3"

/* Whether a program is on the PATH. */
static bool is_on_path(const char *program) {
    const char *list = getenv("PATH");
    char path[PATH_MAX];
    for (const char *at = list ? list : "/bin:/usr/bin"; at; at = strchr(at, ':'), at = at ? at + 1 : at)
        if (snprintf(path, sizeof path, "%.*s/%s", (int)strcspn(at, ":"), at, program) < (int)sizeof path &&
            access(path, X_OK) == 0)
            return true;
    return false;
}

/* What is missing here and now, as far as can be seen before it is tried. */
static const char *missing_here(bool is_private) {
    if (mount_missing())
        return mount_missing();
    if (access(DEVICE, F_OK))
        return "there is no " DEVICE " here: in a container, add --device " DEVICE
               " --cap-add SYS_ADMIN; elsewhere, `modprobe fuse` as root";
    if (access(DEVICE, R_OK | W_OK))
        return DEVICE " can't be opened by this user: `chmod 666 " DEVICE "` as root, as udev has it";
    if (geteuid() != 0 && !is_on_path(HELPER))
        return HELPER " isn't on the PATH: install the package fuse3";
    if (geteuid() == 0 && is_private && (unshare(CLONE_NEWNS) || mount(NULL, "/", NULL, MS_REC | MS_SLAVE, NULL)))
        return "root may not mount anything here: in a container, add --device " DEVICE
               " --cap-add SYS_ADMIN, and on some hosts --security-opt apparmor:unconfined";
    return NULL;
}

void show_prepare(struct broker *broker, bool is_private) {
    broker->show = (struct show){.missing = missing_here(is_private), .watch = {WATCH_TREE, -1, NULL}};
    if (!broker->show.missing && !module_write(&broker->home))
        broker->show.missing = "its folder can't be filled";
}

static bool mount_tree(struct broker *broker) {
    struct show *show = &broker->show;
    static char text[512];
    char folder[PATH_MAX];
    const char *why = "";
    if (snprintf(folder, sizeof folder, "%s/view/sys", broker->home.path) >= (int)sizeof folder ||
        (mkdir(folder, 0755) && errno != EEXIST)) {
        show->missing = "its folder can't be made";
        return false;
    }
    errno = 0;
    show->watch.number = mount_begin(broker, folder, &why);
    if (show->watch.number >= 0 && watch_by(broker->poller, &show->watch, EPOLLIN))
        return true;
    snprintf(text, sizeof text, "it can't be mounted: %s", *why ? why : errno ? strerror(errno) : "see above");
    show->missing = text;
    mount_end();
    return false;
}

bool show_begin(struct broker *broker, enum wire_tree need) {
    struct show *show = &broker->show;
    if (!show->is_shown && !show->missing)
        show->is_shown = mount_tree(broker);
    if (!show->is_shown && need == WIRE_TREE_USES && !show->is_reported) {
        report("gpio-sim's file system isn't shown at /sys/kernel/config: %s", show->missing);
        show->is_reported = true;
    }
    return show->is_shown;
}

/* Files that were closed before a request are closed before it is answered, as for the requests of the library. */
bool show_answer(struct broker *broker) {
    if (!turn_close_ended(broker))
        return false;
    if (!mount_answer(broker)) {
        broker->show.is_shown = false;
        broker->show.missing = "it was unmounted";
        epoll_ctl(broker->poller, EPOLL_CTL_DEL, broker->show.watch.number, NULL);
    }
    return !broker->machine.ended;
}

void show_end(struct broker *broker) {
    mount_end();
    broker->show.is_shown = false;
}
