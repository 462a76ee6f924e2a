/* One thread puts numbers into a ring of four places, and two take them out, under a mutex that holds. A taker that finds the ring
   empty gives the mutex back, waits until there is something, and takes the mutex again; but it doesn't look again. So both may take
   the same number, or one that isn't there. Ends with 0 if the sum of what was taken is that of the numbers, else with the sum. */
#include "delorean.h"

enum { SIZE = 4, NUMBERS = 6, TAKERS = 2 };

static unsigned mutex;
static unsigned ring[SIZE];
static volatile int count;
static unsigned first, last;
static unsigned sums[TAKERS];
static struct stack stacks[1 + TAKERS];

static void take(void) {
    while (__atomic_exchange_n(&mutex, 1, __ATOMIC_ACQUIRE))
        ;
}

static void give(void) { __atomic_store_n(&mutex, 0, __ATOMIC_RELEASE); }

static unsigned putter(unsigned unused) {
    for (unsigned number = 1; number <= NUMBERS; number++) {
        take();
        while (count == SIZE) {
            give();
            while (count == SIZE)
                ;
            take();
        }
        ring[last++ % SIZE] = number;
        count++;
        give();
    }
    return unused;
}

static unsigned taker(unsigned own) {
    for (unsigned j = 0; j < NUMBERS / TAKERS; j++) {
        take();
        if (count == 0) {
            give();
            while (count == 0)
                ;
            take();
        }
        sums[own] += ring[first++ % SIZE];
        count--;
        give();
    }
    return own;
}

int main(void) {
    unsigned threads[1 + TAKERS];
    threads[0] = start_thread(putter, 0, &stacks[0]);
    for (unsigned j = 0; j < TAKERS; j++)
        threads[1 + j] = start_thread(taker, j, &stacks[1 + j]);
    for (unsigned j = 0; j < 1 + TAKERS; j++)
        join(threads[j]);
    unsigned sum = sums[0] + sums[1];
    return sum == NUMBERS * (NUMBERS + 1) / 2 ? 0 : sum;
}
