#include "real.h"

#include <dlfcn.h>

#define REAL_TEXT(name) #name,
static const char *const names[] = {REAL_NAMES(REAL_TEXT)};
static void *found[REAL_COUNT];

/* (constructors of other libraries may call before this library's has run) */
void *real_function(enum real_number number) {
    void *function = __atomic_load_n(&found[number], __ATOMIC_ACQUIRE);
    if (!function) {
        function = dlsym(RTLD_NEXT, names[number]);
        __atomic_store_n(&found[number], function, __ATOMIC_RELEASE);
    }
    return function;
}

__attribute__((constructor)) static void find_all(void) {
    for (unsigned number = 0; number < REAL_COUNT; number++)
        real_function((enum real_number)number);
}
