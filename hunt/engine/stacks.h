/* The stacks of an image that delorean-cc has linked. A thread's is below its tp, with its block in between. */
#ifndef STACKS_H
#define STACKS_H

#include <stdbool.h>
#include <stdint.h>

struct thread;

/* How far below tp frames may reach: those of the first thread, whose tp is first_tp, and those of any other one. */
struct stacks {
    uint32_t first_tp, of_first, of_others;
};

/* Whether its sp is below its stack. */
bool is_below_stack(const struct stacks *s, const struct thread *t);

#endif
