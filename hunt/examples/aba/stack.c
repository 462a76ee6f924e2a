/* Three threads take blocks from a stack and give them back, without a lock: the top is exchanged if it is still the block
   that was loaded. A thread that gets a block writes its name into it, and looks whether another name is there. Ends with 0
   if no two threads ever had the same block, and else with 1. */
#include "delorean.h"

enum { THREADS = 3, ROUNDS = 4, BLOCKS = 4 };

struct block {
    struct block *below;
    unsigned owner; /* the thread that has it, from 1; 0 in the stack */
};

static struct block blocks[BLOCKS];
static struct block *top;
static volatile unsigned had_by_two;
static struct stack stacks[THREADS];

static struct block *take(void) {
    struct block *old = __atomic_load_n(&top, __ATOMIC_RELAXED);
    while (old != 0) {
        struct block *below = old->below;
        if (__atomic_compare_exchange_n(&top, &old, below, 0, __ATOMIC_RELAXED, __ATOMIC_RELAXED))
            break;
    }
    return old;
}

static void give(struct block *block) {
    struct block *old = __atomic_load_n(&top, __ATOMIC_RELAXED);
    do
        block->below = old;
    while (!__atomic_compare_exchange_n(&top, &old, block, 0, __ATOMIC_RELAXED, __ATOMIC_RELAXED));
}

static void own(struct block *block, unsigned name) {
    if (__atomic_exchange_n(&block->owner, name, __ATOMIC_RELAXED) != 0)
        had_by_two = 1;
}

static void give_back(struct block *block) {
    __atomic_store_n(&block->owner, 0, __ATOMIC_RELAXED);
    give(block);
}

static unsigned work(unsigned number) {
    for (int round = 0; round < ROUNDS && !had_by_two; round++) {
        struct block *first = take();
        if (first == 0)
            continue;
        own(first, number + 1);
        struct block *second = take();
        if (second != 0)
            own(second, number + 1);
        give_back(first);
        if (second != 0)
            give_back(second);
    }
    return number;
}

int main(void) {
    for (int i = 0; i < BLOCKS; i++)
        give(&blocks[i]);
    unsigned threads[THREADS];
    for (unsigned i = 0; i < THREADS; i++)
        threads[i] = start_thread(work, i, &stacks[i]);
    for (unsigned i = 0; i < THREADS; i++)
        join(threads[i]);
    return had_by_two;
}
