#include "tree_names.h"

#include <stddef.h>
#include <string.h>

#include "wire.h"

/* Folders that are the tree's, with all below them. */
static const char *const folders[] = {"/sys/kernel/config/gpio-sim", "/sys/module/gpio_sim"};
/* The folder that it shares with other parts of the kernel: it is the tree's itself alone. */
static const char shared_folder[] = "/sys/kernel/config";
/* How the names of devices begin, and those of lines, wherever the chip is found. */
static const char devices[] = "/sys/devices/platform/gpio-sim.";
static const char lines[] = "/sim_gpio";

bool tree_names_has(const char *path) {
    if (strncmp(path, "/sys/", 5) != 0)
        return false;
    for (size_t i = 0; i < sizeof folders / sizeof *folders; i++) {
        size_t length = strlen(folders[i]);
        if (strncmp(path, folders[i], length) == 0 && (path[length] == 0 || path[length] == '/'))
            return true;
    }
    size_t length = strlen(shared_folder);
    if (strncmp(path, shared_folder, length) == 0 && strspn(path + length, "/") == strlen(path + length))
        return true;
    return strncmp(path, devices, strlen(devices)) == 0 || strstr(path, lines) != NULL;
}

bool tree_names_shares(const char *path) {
    static const char *const fronts[] = {"/sys/bus/gpio", "/sys/devices/gpioserve", "/sys/dev/char/" WIRE_MAJOR_TEXT};
    for (size_t i = 0; i < sizeof fronts / sizeof *fronts; i++)
        if (strncmp(path, fronts[i], strlen(fronts[i])) == 0)
            return true;
    return false;
}
