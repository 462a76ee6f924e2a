/* What a search says on its way: a line for each bound that is done, and, if it was asked, one each second. */
#ifndef TELLING_H
#define TELLING_H

#include <stdbool.h>
#include <stddef.h>
#include <stdint.h>

struct standing {
    uint32_t bound, places, shared;
    uint64_t tries, states;
    double seconds;
    uint64_t left, of; /* with this bound so many ways to begin weren't taken yet, of so many that there were at its start */
};

void ask_for_progress(void);
void tell_bound(const struct standing *s);
bool progress_is_due(double now);
void tell_progress(const struct standing *s);
/* The lines of bounds since the search began, which may have begun in a file. */
const char *lines_told(size_t *length);
void forget_lines(void);
void tell_again(const char *lines, size_t length);

#endif
