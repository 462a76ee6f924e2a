/* ring.c, mended: the taker says that it will sleep before it looks whether the ring is empty. */
#include "delorean.h"

enum { NUMBERS = 6, ROOM = 2, PATIENCE = 40 };

static volatile unsigned ring[ROOM];
static volatile unsigned put, taken; /* how many numbers were */
static volatile unsigned awake;      /* set by the putter, taken away by the taker before it sleeps */
static struct stack stacks[2];

static void wake(void) { awake = 1; }

/* Sleeps until it is woken; 0 if nobody comes. */
static int sleep(void) {
    for (int i = 0; i < PATIENCE; i++) {
        if (awake)
            return 1;
        yield();
    }
    return 0;
}

static unsigned putter(unsigned unused) {
    (void)unused;
    for (unsigned number = 1; number <= NUMBERS; number++) {
        while (put - taken == ROOM)
            yield();
        ring[put % ROOM] = number;
        put = put + 1;
        wake();
    }
    return 0;
}

static unsigned taker(unsigned unused) {
    (void)unused;
    unsigned sum = 0;
    while (taken < NUMBERS && sleep()) {
        awake = 0;
        while (taken != put) {
            sum += ring[taken % ROOM];
            taken = taken + 1;
        }
    }
    return sum;
}

int main(void) {
    unsigned one = start_thread(putter, 0, &stacks[0]), two = start_thread(taker, 0, &stacks[1]);
    join(two);
    if (taken == NUMBERS)
        join(one);
    return taken == NUMBERS ? 0 : taken + 100;
}
