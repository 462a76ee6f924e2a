/* Two readers and a writer share a room. The first reader that comes locks the writer out, and the last one that leaves lets it
   in again. The readers count themselves under a mutex, but a reader that leaves looks whether it was the last one after it has
   given the mutex back. Ends with 0 if no reader has seen half of what the writer does; or never. */
#include "delorean.h"

enum { READERS = 2, ROUNDS = 3 };

static unsigned mutex, room;
static volatile int readers;
static volatile unsigned one, two, torn;
static struct stack stacks[READERS + 1];

static void take(unsigned *lock) {
    while (__atomic_exchange_n(lock, 1, __ATOMIC_ACQUIRE))
        ;
}

static void give(unsigned *lock) { __atomic_store_n(lock, 0, __ATOMIC_RELEASE); }

static void come(void) {
    take(&mutex);
    if (++readers == 1)
        take(&room);
    give(&mutex);
}

static void leave(void) {
    take(&mutex);
    --readers;
    give(&mutex);
    if (readers == 0)
        give(&room);
}

static unsigned reader(unsigned own) {
    for (unsigned j = 0; j < ROUNDS; j++) {
        come();
        if (one != two)
            torn = 1;
        leave();
    }
    return own;
}

static unsigned writer(unsigned own) {
    for (unsigned j = 0; j < ROUNDS; j++) {
        take(&room);
        one = one + 1;
        two = two + 1;
        give(&room);
    }
    return own;
}

int main(void) {
    unsigned threads[READERS + 1];
    for (unsigned j = 0; j < READERS; j++)
        threads[j] = start_thread(reader, j, &stacks[j]);
    threads[READERS] = start_thread(writer, READERS, &stacks[READERS]);
    for (unsigned j = 0; j < READERS + 1; j++)
        join(threads[j]);
    return torn || one != ROUNDS || two != ROUNDS;
}
