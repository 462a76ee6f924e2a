/* ticks.c, mended: the counter is loaded and stored by one instruction, which no interrupt can part. */
#include "delorean.h"

enum { ROUNDS = 100 };

static volatile unsigned counter;    /* rounds and interrupts */
static volatile unsigned interrupts; /* counted by the handler alone */

void on_interrupt(unsigned value) {
    (void)value;
    interrupts = interrupts + 1;
    __atomic_fetch_add(&counter, 1, __ATOMIC_RELAXED);
}

int main(void) {
    handler(interrupt_entry);
    for (int round = 0; round < ROUNDS; round++)
        __atomic_fetch_add(&counter, 1, __ATOMIC_RELAXED);
    handler(0);
    return ROUNDS + interrupts - counter;
}
