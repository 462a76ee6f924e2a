/* stack.c, mended: the top also has how often it was changed, so a top that was changed and changed back isn't the one that
   was loaded. */
#include "delorean.h"

enum { THREADS = 3, ROUNDS = 4, BLOCKS = 4 };

struct block {
    struct block *below;
    unsigned owner; /* the thread that has it, from 1; 0 in the stack */
};

static struct block blocks[BLOCKS];
static unsigned top; /* low half: which block, from 1, or 0 for none; high half: how often it was changed */
static volatile unsigned had_by_two;
static struct stack stacks[THREADS];

static struct block *block_of(unsigned top) { return (top & 0xFFFF) == 0 ? 0 : &blocks[(top & 0xFFFF) - 1]; }

/* What comes after the old top, with this block on it. */
static unsigned next_top(unsigned old, const struct block *block) {
    return ((old & 0xFFFF0000) + 0x10000) | (block == 0 ? 0 : (unsigned)(block - blocks) + 1);
}

static struct block *take(void) {
    unsigned old = __atomic_load_n(&top, __ATOMIC_RELAXED);
    while (block_of(old) != 0) {
        struct block *below = block_of(old)->below;
        if (__atomic_compare_exchange_n(&top, &old, next_top(old, below), 0, __ATOMIC_RELAXED, __ATOMIC_RELAXED))
            break;
    }
    return block_of(old);
}

static void give(struct block *block) {
    unsigned old = __atomic_load_n(&top, __ATOMIC_RELAXED);
    do
        block->below = block_of(old);
    while (!__atomic_compare_exchange_n(&top, &old, next_top(old, block), 0, __ATOMIC_RELAXED, __ATOMIC_RELAXED));
}

static void own(struct block *block, unsigned name) {
    if (__atomic_exchange_n(&block->owner, name, __ATOMIC_RELAXED) != 0)
        had_by_two = 1;
}

static void give_back(struct block *block) {
    __atomic_store_n(&block->owner, 0, __ATOMIC_RELAXED);
    give(block);
}

static unsigned work(unsigned number) {
    for (int round = 0; round < ROUNDS && !had_by_two; round++) {
        struct block *first = take();
        if (first == 0)
            continue;
        own(first, number + 1);
        struct block *second = take();
        if (second != 0)
            own(second, number + 1);
        give_back(first);
        if (second != 0)
            give_back(second);
    }
    return number;
}

int main(void) {
    for (int i = 0; i < BLOCKS; i++)
        give(&blocks[i]);
    unsigned threads[THREADS];
    for (unsigned i = 0; i < THREADS; i++)
        threads[i] = start_thread(work, i, &stacks[i]);
    for (unsigned i = 0; i < THREADS; i++)
        join(threads[i]);
    return had_by_two;
}
