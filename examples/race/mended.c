/* race.c with its lock mended: it is taken by one atomic exchange, so one thread alone finds it free. */
#include "delorean.h"

enum { THREADS = 2, ROUNDS = 10 };

static unsigned lock;             /* 1 while a thread holds it */
static volatile unsigned counter; /* written under the lock alone */
static struct stack stacks[THREADS];

static void take(void) {
    while (__atomic_exchange_n(&lock, 1, __ATOMIC_ACQUIRE) != 0)
        ;
}

static void release(void) { __atomic_store_n(&lock, 0, __ATOMIC_RELEASE); }

static unsigned work(unsigned number) {
    for (int round = 0; round < ROUNDS; round++) {
        take();
        counter = counter + 1;
        release();
    }
    return number;
}

int main(void) {
    unsigned threads[THREADS];
    for (unsigned i = 0; i < THREADS; i++)
        threads[i] = start_thread(work, i, &stacks[i]);
    for (unsigned i = 0; i < THREADS; i++)
        join(threads[i]);
    unsigned total = counter;
    return total == THREADS * ROUNDS ? 0 : total;
}
