#include "dice.h"

#define STEP 0x9E3779B97F4A7C15u

static uint64_t stirred(uint64_t v) {
    v = (v ^ v >> 30) * 0xBF58476D1CE4E5B9u;
    v = (v ^ v >> 27) * 0x94D049BB133111EBu;
    return v ^ v >> 31;
}

struct dice dice_of(uint64_t seed, uint64_t number) { return (struct dice){stirred(stirred(seed + STEP) + number)}; }

uint64_t drawn(struct dice *d) { return stirred(d->state += STEP); }

uint64_t drawn_below(struct dice *d, uint64_t count) { return drawn(d) % count; }
