/* Numbers that are drawn: splitmix64 (Steele, Lea and Flood, OOPSLA 2014). */
#ifndef DICE_H
#define DICE_H

#include <stdint.h>

struct dice { uint64_t state; };

/* The numbers of a try, which don't depend on those of the others. */
struct dice dice_of(uint64_t seed, uint64_t number);
uint64_t drawn(struct dice *d);
/* One of 0 .. count - 1. */
uint64_t drawn_below(struct dice *d, uint64_t count);

#endif
