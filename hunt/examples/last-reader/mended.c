/* As readers.c, but a reader that leaves looks before it gives the mutex back. */
#include "delorean.h"

enum { READERS = 2, ROUNDS = 3 };

static unsigned mutex, room;
static volatile int readers;
static volatile unsigned one, two, torn;
static struct stack stacks[READERS + 1];

static void take(unsigned *lock) {
    while (__atomic_exchange_n(lock, 1, __ATOMIC_ACQUIRE))
        ;
}

static void give(unsigned *lock) { __atomic_store_n(lock, 0, __ATOMIC_RELEASE); }

static void come(void) {
    take(&mutex);
    if (++readers == 1)
        take(&room);
    give(&mutex);
}

static void leave(void) {
    take(&mutex);
    if (--readers == 0)
        give(&room);
    give(&mutex);
}

static unsigned reader(unsigned own) {
    for (unsigned j = 0; j < ROUNDS; j++) {
        come();
        if (one != two)
            torn = 1;
        leave();
    }
    return own;
}

static unsigned writer(unsigned own) {
    for (unsigned j = 0; j < ROUNDS; j++) {
        take(&room);
        one = one + 1;
        two = two + 1;
        give(&room);
    }
    return own;
}

int main(void) {
    unsigned threads[READERS + 1];
    for (unsigned j = 0; j < READERS; j++)
        threads[j] = start_thread(reader, j, &stacks[j]);
    threads[READERS] = start_thread(writer, READERS, &stacks[READERS]);
    for (unsigned j = 0; j < READERS + 1; j++)
        join(threads[j]);
    return torn || one != ROUNDS || two != ROUNDS;
}
