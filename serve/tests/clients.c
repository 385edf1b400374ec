/* A program that asks chips whatever programs ask them, run by gpioserve on tests/board: clients [--notified] [TEST].
 * With --notified it expects that the kernel notifies of its calls. */
#include <stdio.h>
#include <string.h>

#include "check.h"

/* Tests that want a broker of their own, each by the argument that asks for it. */
static const struct {
    const char *argument;
    void (*run)(void);
} alone[] = {{"--manual", test_manual}, {"--killed", test_killed_midway}, {"--forks", test_forks},
    {"--crowd", test_crowd}, {"--churn", test_churn}, {"--tree", test_tree}, {"--hardware", test_hardware}};

int main(int count, char **arguments) {
    const char *own = arguments[0];
    is_notified = count > 1 && strcmp(arguments[1], "--notified") == 0;
    count -= is_notified;
    arguments += is_notified;
    const char *argument = count > 1 ? arguments[1] : "";
    if (count == 3 && strcmp(argument, "--inherited") == 0)
        return test_inherited(arguments[2]);
    if (strcmp(argument, "--waits") == 0)
        return test_waiting();
    if (strcmp(argument, "--reads") == 0)
        return test_reading();
    for (size_t i = 0; i < sizeof alone / sizeof *alone; i++) {
        if (strcmp(argument, alone[i].argument) == 0) {
            alone[i].run();
            return !test_end();
        }
    }
    test_files();
    test_chip_names();
    test_memory();
    test_values();
    test_version1();
    test_events();
    test_processes(own);
    test_threads();
    test_saying();
    test_hostile();
    test_waits();
    test_removal();
    test_waits_for_chips();
    return !test_end();
}
