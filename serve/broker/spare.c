#include "spare.h"

#include <errno.h>
#include <fcntl.h>
#include <unistd.h>

/* Numbers are those of the whole process, and so is this one; -1 where it is lent. */
static int spare = -1;

void spare_take(void) {
    if (spare < 0)
        spare = open("/dev/null", O_RDONLY | O_CLOEXEC);
}

void spare_lend(void) {
    if (spare >= 0)
        close(spare);
    spare = -1;
}

bool spare_is_wanted(int error) {
    return error == EMFILE || error == ENFILE;
}
