/* release.c, mended: a thread that has no lock releases none. */
#include "delorean.h"

enum { THREADS = 2, ROUNDS = 4, TRIES = 2 };

static unsigned lock;             /* 1 while a thread holds it */
static volatile unsigned counter; /* written under the lock alone */
static volatile unsigned counted[THREADS];
static struct stack stacks[THREADS];

static int take(void) {
    for (int i = 0; i < TRIES; i++)
        if (__atomic_exchange_n(&lock, 1, __ATOMIC_ACQUIRE) == 0)
            return 1;
    return 0;
}

static void release(void) { __atomic_store_n(&lock, 0, __ATOMIC_RELEASE); }

static unsigned work(unsigned number) {
    for (int round = 0; round < ROUNDS; round++) {
        if (take()) {
            counter = counter + 1;
            counted[number] = counted[number] + 1;
            release();
        }
    }
    return number;
}

int main(void) {
    unsigned threads[THREADS], sum = 0;
    for (unsigned i = 0; i < THREADS; i++)
        threads[i] = start_thread(work, i, &stacks[i]);
    for (unsigned i = 0; i < THREADS; i++)
        join(threads[i]);
    for (unsigned i = 0; i < THREADS; i++)
        sum += counted[i];
    return counter != sum;
}
