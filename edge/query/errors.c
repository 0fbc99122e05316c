#include "errors.h"

#include <stdarg.h>
#include <stdio.h>

void complain(const char *form, ...) {
    va_list arguments;
    va_start(arguments, form);
    fputs("pongulvesz-query: ", stderr);
    vfprintf(stderr, form, arguments);
    fputc('\n', stderr);
    va_end(arguments);
}
