/* In the place of fuse.c, where libfuse3 isn't there at build time. */
#include <stddef.h>

#include "mount.h"

const char *mount_missing(void) {
    return "gpioserve was built without libfuse3: install libfuse3-dev, and run make in serve/ again";
}

int mount_begin(struct broker *broker, const char *folder, const char **why) {
    (void)broker;
    (void)folder;
    *why = mount_missing();
    return -1;
}

bool mount_answer(struct broker *broker) {
    (void)broker;
    return false;
}

pid_t mount_process(void) {
    return 0;
}

void mount_end(void) {
}
