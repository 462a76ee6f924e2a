/* One thread puts numbers into a ring, and another takes them out. The taker sleeps if the ring is empty, and the putter wakes
   it. Ends with 0 if all numbers were taken. A taker that isn't woken sleeps for ever. */
#include "delorean.h"

enum { NUMBERS = 6, ROOM = 2 };

static volatile unsigned ring[ROOM];
static volatile unsigned put, taken; /* how many numbers were */
static volatile unsigned awake;      /* set by the putter, taken away by the taker before it sleeps */
static struct stack stacks[2];

static void wake(void) { awake = 1; }

static void sleep(void) {
    while (!awake)
        yield();
}

static unsigned putter(unsigned unused) {
    (void)unused;
    for (unsigned number = 1; number <= NUMBERS; number++) {
        while (put - taken == ROOM)
            yield();
        ring[put % ROOM] = number;
        put = put + 1;
        wake();
    }
    return 0;
}

static unsigned taker(unsigned unused) {
    (void)unused;
    unsigned sum = 0;
    while (taken < NUMBERS) {
        sleep();
        while (taken != put) {
            sum += ring[taken % ROOM];
            taken = taken + 1;
        }
        awake = 0;
    }
    return sum;
}

int main(void) {
    unsigned one = start_thread(putter, 0, &stacks[0]), two = start_thread(taker, 0, &stacks[1]);
    join(one);
    join(two);
    return taken == NUMBERS ? 0 : 1;
}
