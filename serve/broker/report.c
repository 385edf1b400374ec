#include "report.h"

#include <stdarg.h>
#include <stdio.h>

void report(const char *form, ...) {
    va_list values;
    va_start(values, form);
    fputs("gpioserve: ", stderr);
    vfprintf(stderr, form, values);
    fputc('\n', stderr);
    va_end(values);
}
