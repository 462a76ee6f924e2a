/* What can come at a stop of a run: another thread, a DMA, an interrupt, or the chunk's end. One choice is taken, and others are put off
   or tried apart. */
#ifndef CHOICES_H
#define CHOICES_H

#include "run.h"

/* A run of the search, and the item that it does. */
struct trial {
    struct run *run;
    uint32_t item;
    uint32_t stop;   /* the number of the present stop: of a place, or of a turn's end */
    uint32_t places; /* of them those at which others could come */
    bool fresh;      /* the current thread has come to no place since it came */
    uint64_t touches_then; /* the touches of all segments when it came */
};

/* The current thread comes here. */
void comes(struct trial *t);
void take_choice(struct trial *t, uint32_t choice, enum turn_end end);
/* The choices that there are at this stop, in this whole state, with one forced switch more. */
void offer(const struct trial *t, enum stop stop, struct hash state);
/* Whether it is a place at which others could come. */
bool is_counted(const struct trial *t, enum stop stop);
/* Whether no thread goes on, and nothing else can come. */
bool is_leaf(struct run *run);

/* The ways to go on for nothing, which are new. */
struct ways {
    uint32_t items[MOST_THREADS + 1 + MOST_RAISES];
    uint32_t count;
};
void find_ways(const struct trial *t, struct hash state, struct ways *ways);

#endif
