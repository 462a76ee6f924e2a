/* Idle steps: a thread comes back to a state in which it was, and meanwhile has changed nothing that others can see. A run in which
   it doesn't do them is the same for all. */
#ifndef IDLE_H
#define IDLE_H

#include "machine.h"

/* The states of a thread since it last changed something, without those of idle steps. */
struct trail {
    struct hash *states;
    size_t *turns; /* in which of the run's turns each was reached */
    size_t count, room;
    uint64_t stores, events; /* the machine's, when this was last looked at */
};

struct idle {
    struct trail trails[MOST_THREADS];
    uint64_t *kept; /* of each turn the steps that aren't idle */
    size_t turn_count, turn_room;
};

void start_idle(struct idle *idle);
/* A thread is about to do its first step in this turn. */
void note_turn(struct idle *idle, const struct machine *m, uint32_t thread, size_t turn);
/* It has done a step. */
void note_step(struct idle *idle, const struct machine *m, uint32_t thread, size_t turn);

#endif
