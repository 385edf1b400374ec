/* Which devices and names of the machine itself are kept from programs. */
#include <fcntl.h>
#include <string.h>

#include "../library/hardware.h"
#include "../library/names.h"
#include "units.h"

static int is_major(const char *line, unsigned expected) {
    unsigned major = 0;
    return hardware_read_line(line, &major) && major == expected;
}

static int is_other(const char *line) {
    unsigned major;
    return !hardware_read_line(line, &major);
}

void test_names_of_hardware(void) {
    char room[NAMES_ROOM];
    count(is_major("254 gpiochip", 254) && is_major("  9 gpiochip", 9), "the major number of GPIO chips is read");
    count(is_other("Character devices:") && is_other("") && is_other("254 gpiochips") && is_other("gpiochip") &&
              is_other("10 misc"),
        "and that of other devices isn't taken for it");
    count(strcmp(names_moved(AT_FDCWD, "/sys/class/gpio/export", room), "/nowhere/root/sys/class/gpio/export") == 0 &&
              strcmp(names_moved(AT_FDCWD, "/sys//class/./gpio", room), "/nowhere/root/sys/class/gpio") == 0,
        "lines of the machine aren't exported");
    count(strcmp(names_moved(AT_FDCWD, "/sys/class/net", room), "/sys/class/net") == 0, "other classes stay");
}
