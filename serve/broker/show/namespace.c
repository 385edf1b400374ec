#include "namespace.h"

#include <dirent.h>
#include <errno.h>
#include <fcntl.h>
#include <limits.h>
#include <sched.h>
#include <signal.h>
#include <stdarg.h>
#include <stdbool.h>
#include <stdio.h>
#include <string.h>
#include <sys/mount.h>
#include <sys/stat.h>
#include <unistd.h>

#include "../report.h"
#include "../tree/places.h"

/* Where the system's own /sys stands in the new name space, below the broker's folder. */
#define SYSTEM "/system"

/* Reports what failed in the new process, with errno: false. */
static bool fail(const char *what, const char *path) {
    const char *help = errno == EPERM || errno == ENOSPC
                           ? " (--sys needs user name spaces: sysctl user.max_user_namespaces, and on some systems a "
                             "profile of AppArmor; or root. Without --sys the library shows gpio-sim's file system, "
                             "and --way notify shows it to static programs)"
                           : "";
    report("the command can't have a /sys of its own: %s%s: %s%s", what, path, strerror(errno), help);
    return false;
}

__attribute__((format(printf, 2, 3))) static bool write_text(const char *path, const char *form, ...) {
    char text[64];
    va_list values;
    va_start(values, form);
    int length = vsnprintf(text, sizeof text, form, values);
    va_end(values);
    int file = open(path, O_WRONLY | O_CLOEXEC);
    bool good = file >= 0 && write(file, text, (size_t)length) == length;
    if (file >= 0)
        close(file);
    return good || fail("", path);
}

/* Enters the name spaces. In that of users there is the user alone, under the same number: files belong to others. */
static bool enter(void) {
    uid_t user = geteuid();
    gid_t group = getegid();
    if (unshare(user == 0 ? CLONE_NEWNS : CLONE_NEWUSER | CLONE_NEWNS))
        return fail("unshare", "");
    if (user != 0 &&
        !(write_text("/proc/self/setgroups", "deny") && write_text("/proc/self/uid_map", "%u %u 1", user, user) &&
            write_text("/proc/self/gid_map", "%u %u 1", group, group)))
        return false;
    return mount(NULL, "/", NULL, MS_REC | MS_PRIVATE, NULL) == 0 || fail("mount ", "/");
}

/* Whether an entry of /sys is the file system's alone. */
static bool is_ours(const char *path) {
    static const char *const ours[] = {"/bus/gpio", "/devices/gpioserve", "/kernel/config", "/module/gpio_sim"};
    for (size_t i = 0; i < sizeof ours / sizeof *ours; i++)
        if (strcmp(path, ours[i]) == 0)
            return true;
    return false;
}

/* Binds what the system has in one of the folders that both have. Links are the file system's own; an entry that has
 * gone meanwhile is passed over. */
static bool bind_folder(const char *system, const char *folder) {
    char from[PATH_MAX], to[PATH_MAX], name[PATH_MAX];
    struct dirent *entry;
    if (snprintf(from, sizeof from, "%s%s", system, folder) >= (int)sizeof from)
        return false;
    DIR *list = opendir(from);
    bool good = true;
    while (list && good && (entry = readdir(list))) {
        snprintf(name, sizeof name, "%s/%s", strcmp(folder, "/") == 0 ? "" : folder, entry->d_name);
        if (entry->d_name[0] == '.' || entry->d_type == DT_LNK || places_is_fixed(name) || is_ours(name))
            continue;
        bool fits = snprintf(from, sizeof from, "%s%s", system, name) < (int)sizeof from &&
                    snprintf(to, sizeof to, "/sys%s", name) < (int)sizeof to;
        good = !fits || mount(from, to, NULL, MS_BIND | MS_REC, NULL) == 0 || errno == ENOENT || fail("mount ", to);
    }
    if (list)
        closedir(list);
    return good;
}

/* Puts the file system at /sys, and the system's own entries below it. */
static bool take_view(const char *folder) {
    char system[PATH_MAX], view[PATH_MAX];
    static const char config[] = "/sys/kernel/config";
    if (snprintf(system, sizeof system, "%s" SYSTEM, folder) >= (int)sizeof system ||
        snprintf(view, sizeof view, "%s/view/sys", folder) >= (int)sizeof view)
        return false;
    if (mkdir(system, 0755) && errno != EEXIST)
        return fail("mkdir ", system);
    if (mount("/sys", system, NULL, MS_BIND | MS_REC, NULL) || mount(view, "/sys", NULL, MS_BIND, NULL))
        return fail("mount ", "/sys");
    for (const char *const *fixed = places_fixed; *fixed; fixed++)
        if (!is_ours(*fixed) && !bind_folder(system, *fixed))
            return false;
    /* (configfs is a mount of its own) */
    return mount(config, config, NULL, MS_BIND, NULL) == 0 || fail("mount ", config);
}

/* The new process, up to the program. */
static _Noreturn void become(char *const *words, const char *folder, char *const *environment) {
    sigset_t none;
    sigemptyset(&none);
    if (signal(SIGPIPE, SIG_DFL) == SIG_ERR || sigprocmask(SIG_SETMASK, &none, NULL) || !enter() || !take_view(folder))
        _exit(STATUS_OWN);
    execvpe(words[0], words, environment);
    report("%s can't be run: %s", words[0], strerror(errno));
    _exit(errno == ENOENT ? STATUS_NOT_FOUND : STATUS_NOT_RUN);
}

int namespace_start(pid_t *pid, char *const *words, const char *folder, char *const *environment) {
    fflush(NULL);
    *pid = fork();
    if (*pid == 0)
        become(words, folder, environment);
    return *pid < 0 ? errno : 0;
}
