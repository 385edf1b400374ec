#include "module.h"

#include <errno.h>
#include <fcntl.h>
#include <limits.h>
#include <stdio.h>
#include <stdlib.h>
#include <string.h>
#include <sys/stat.h>
#include <unistd.h>

/* modprobe loads these modules by doing nothing: what they bring is there. */
static const char configuration[] = "install gpio-sim /bin/true\n"
                                    "install configfs /bin/true\n"
                                    "remove gpio-sim /bin/true\n"
                                    "remove configfs /bin/true\n";

/* In the place of a modprobe that isn't installed, or isn't on the PATH. */
static const char modprobe[] = "#!/bin/sh\n"
                               "# gpio-sim and configfs are there, and no other module\n"
                               "for word; do\n"
                               "  case $word in\n"
                               "  -* | gpio-sim | gpio_sim | configfs) ;;\n"
                               "  *) exit 1 ;;\n"
                               "  esac\n"
                               "done\n";

/* In the place of a mountpoint that isn't installed. */
static const char mountpoint[] = "#!/bin/sh\n"
                                 "# whether the last argument is where something is mounted\n"
                                 "for folder; do :; done\n"
                                 "while read -r _ _ _ _ place _; do\n"
                                 "  [ \"$place\" = \"${folder%/}\" ] && exit 0\n"
                                 "done </proc/self/mountinfo\n"
                                 "exit 1\n";

/* Where modprobe looks for its configuration, unless it is told otherwise: that stays in force. */
static const char *const system_folders[] = {
    "/etc/modprobe.d", "/run/modprobe.d", "/usr/local/lib/modprobe.d", "/usr/lib/modprobe.d", "/lib/modprobe.d"};

/* Writes a file of the folder. */
static bool write_file(const struct home *home, const char *name, const char *text, mode_t mode) {
    char path[PATH_MAX];
    if (snprintf(path, sizeof path, "%s/%s", home->path, name) >= (int)sizeof path)
        return false;
    int file = open(path, O_WRONLY | O_CREAT | O_TRUNC | O_CLOEXEC, mode);
    if (file < 0)
        return false;
    size_t length = strlen(text);
    bool good = write(file, text, length) == (ssize_t)length;
    return close(file) == 0 && good;
}

bool module_write(const struct home *home) {
    char path[PATH_MAX];
    return snprintf(path, sizeof path, "%s/bin", home->path) < (int)sizeof path && mkdir(path, 0755) == 0 &&
           write_file(home, "modprobe.conf", configuration, 0644) && write_file(home, "bin/modprobe", modprobe, 0755) &&
           write_file(home, "bin/mountpoint", mountpoint, 0755);
}

/* Adds the system's own folders to the options, each behind `-C`. */
static void add_folders(char *text, size_t size) {
    struct stat status;
    for (size_t i = 0; i < sizeof system_folders / sizeof *system_folders; i++) {
        size_t length = strlen(text);
        if (stat(system_folders[i], &status) == 0)
            snprintf(text + length, size - length, " -C %s", system_folders[i]);
    }
}

bool module_make(struct module_variables *variables, const char *folder) {
    const char *options = getenv("MODPROBE_OPTIONS"), *list = getenv("PATH");
    char folders[256] = "";
    memset(variables, 0, sizeof *variables);
    add_folders(folders, sizeof folders);
    if (asprintf(&variables->options, "MODPROBE_OPTIONS=-C %s/modprobe.conf%s%s%s", folder, folders, options ? " " : "",
            options ? options : "") < 0)
        variables->options = NULL;
    /* (the programs stand last on the PATH, so that those of the system come first) */
    if (asprintf(&variables->path, "PATH=%s:%s/bin", list ? list : "/bin:/usr/bin", folder) < 0)
        variables->path = NULL;
    return variables->options && variables->path;
}

void module_free(struct module_variables *variables) {
    free(variables->options);
    free(variables->path);
    memset(variables, 0, sizeof *variables);
}
