/* The crew: the threads of this program that search together, the one that began among them. */
#ifndef CREW_H
#define CREW_H

#include <stdatomic.h>
#include <stdbool.h>
#include <stdint.h>

enum { MOST_OF_CREW = 64 };

void set_crew(uint32_t size);
uint32_t crew_size(void);
uint32_t crew_number(void); /* whose this is; 0 is the one that began */
/* Each of the crew does this once. It comes back when all have come back from it. */
void together(void (*work)(void));

/* What all of the crew count together. It is apart from what others look at all the time. */
struct counter {
    _Alignas(64) _Atomic uint64_t value;
};

static inline void count_up(struct counter *c, bool alone) {
    if (alone)
        atomic_store_explicit(&c->value, atomic_load_explicit(&c->value, memory_order_relaxed) + 1, memory_order_relaxed);
    else
        c->value++;
}

void spin_lock(atomic_flag *lock); /* for a few instructions; whoever is alone needs none */
void spin_unlock(atomic_flag *lock);

/* For tests: whoever comes to this point may be made to wait, as DELOREAN_SEARCH_DELAYS says. It is a list of POINT:NUMBER:US, with commas:
   of the crew that one, or any if it is *, waits so many microseconds, each time; or mostly less, if a + is in front. */
void delay(const char *point);

#endif
