/* Two threads each add 1 to a counter ten times, under a lock. The lock is taken by a load and then a store, so two
   threads can both find it free. Ends with 0 if the counter is right, and otherwise with its value. */
#include "delorean.h"

enum { THREADS = 2, ROUNDS = 10 };

static volatile unsigned lock;    /* 1 while a thread holds it */
static volatile unsigned counter; /* written under the lock alone */
static struct stack stacks[THREADS];

static void take(void) {
    while (lock != 0)
        ;
    lock = 1;
}

static void release(void) { lock = 0; }

static unsigned work(unsigned number) {
    for (int round = 0; round < ROUNDS; round++) {
        take();
        counter = counter + 1;
        release();
    }
    return number;
}

int main(void) {
    unsigned threads[THREADS];
    for (unsigned i = 0; i < THREADS; i++)
        threads[i] = start_thread(work, i, &stacks[i]);
    for (unsigned i = 0; i < THREADS; i++)
        join(threads[i]);
    unsigned total = counter;
    return total == THREADS * ROUNDS ? 0 : total;
}
