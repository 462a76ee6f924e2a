/* The search: all orders with no forced switch, then those with one, then with two, up to the limits. */
#ifndef SEARCH_H
#define SEARCH_H

#include "condition.h"
#include "limit.h"
#include "run.h"

struct tally {
    uint64_t tries, ended, waited, repeated, limited;
    uint32_t most_places, bound, restarts;
};

enum finish search(struct run *r, const struct condition *bad, const struct limits *limits, struct tally *tally);

#endif
