/* Up to where a search goes, and whether it is there. */
#ifndef LIMIT_H
#define LIMIT_H

#include <stdbool.h>
#include <stdint.h>

struct limits {
    uint32_t switches;
    uint64_t tries, states;
    double seconds;
};

/* Why the search ended. */
enum finish { FOUND, BOUND_DONE, ALL_DONE, OUT_OF_TRIES, OUT_OF_TIME, OUT_OF_STATES, INTERRUPTED };

bool limit_is_met(enum finish *which);
/* Whether all are to come back, so that the search looks up. Whoever began it says now and then how it is. */
bool must_come_back(void);
/* The search ends after the present run. A signal may call this. */
void interrupt_search(void);
bool is_interrupted(void);

#endif
