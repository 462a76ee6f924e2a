/* strtok keeps its place for all threads together, as most C libraries do. picolibc's keeps one for each thread, which would hide that two
   threads can't use it at once. */
#include <string.h>

char *strtok(char *restrict text, const char *restrict cuts) {
    static char *rest;
    return strtok_r(text, cuts, &rest);
}
