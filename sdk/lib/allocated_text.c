/* Printing to memory of malloc. */
#include <stdarg.h>
#include <stdio.h>
#include <stdlib.h>

int vasprintf(char **to, const char *format, va_list list) {
    int length = vsnprintf(NULL, 0, format, list);
    *to = length < 0 ? NULL : malloc((size_t)length + 1);
    return *to ? vsnprintf(*to, (size_t)length + 1, format, list) : -1;
}

int asprintf(char **to, const char *format, ...) {
    va_list list;
    va_start(list, format);
    int result = vasprintf(to, format, list);
    va_end(list);
    return result;
}
