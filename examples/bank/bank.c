/* Two clerks move money between two accounts until the bank is closed. Each takes a lock for that, except every 1,024th time.
   Main adds the accounts up under the lock, over and over. If the sum is wrong, it closes the bank, waits for the clerks, and
   ends with that sum. */
#include "delorean.h"

enum { CLERKS = 2, ALL = 20000, CARELESS = 1024 };

static unsigned lock;                /* 1 while a thread holds it */
static volatile unsigned account[2]; /* ALL together, if they are changed under the lock alone */
static volatile unsigned closed;     /* the sum that was wrong */
static struct stack stacks[CLERKS];

static void take(void) {
    while (__atomic_exchange_n(&lock, 1, __ATOMIC_SEQ_CST) != 0)
        ;
}

static void release(void) { __atomic_store_n(&lock, 0, __ATOMIC_SEQ_CST); }

static void move(unsigned from, unsigned to) {
    account[from] = account[from] - 1;
    account[to] = account[to] + 1;
}

static unsigned clerk(unsigned from) {
    for (unsigned times = 1; closed == 0; times++) {
        int careful = times % CARELESS != 0;
        if (careful)
            take();
        move(from, 1 - from);
        if (careful)
            release();
    }
    return from;
}

static unsigned sum(void) {
    take();
    unsigned sum = account[0] + account[1];
    release();
    return sum;
}

int main(void) {
    unsigned threads[CLERKS], found;
    account[0] = account[1] = ALL / 2;
    for (unsigned i = 0; i < CLERKS; i++)
        threads[i] = start_thread(clerk, i, &stacks[i]);
    do
        found = sum();
    while (found == ALL);
    closed = found;
    for (unsigned i = 0; i < CLERKS; i++)
        join(threads[i]);
    return found;
}
