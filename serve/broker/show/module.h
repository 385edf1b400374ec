/* The programs by which a test suite asks the system for gpio-sim before it begins: modprobe and mountpoint. */
#ifndef MODULE_H
#define MODULE_H

#include <stdbool.h>

#include "../home.h"

/* The variables that a program needs for their answers, each as `NAME=VALUE`. */
struct module_variables {
    char *options, *path;
};

/* Writes the configuration of modprobe and the two programs to the folder. False, with errno, where that fails. */
bool module_write(const struct home *home);

/* Makes the variables, which module_free frees. False where memory is short. */
bool module_make(struct module_variables *variables, const char *folder);
void module_free(struct module_variables *variables);

#endif
