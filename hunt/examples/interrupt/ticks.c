/* A thread counts its rounds, and its interrupt handler counts interrupts, both in one counter. Ends with 0 if the counter
   is right, and else with what is missing. */
#include "delorean.h"

enum { ROUNDS = 100 };

static volatile unsigned counter;    /* rounds and interrupts */
static volatile unsigned interrupts; /* counted by the handler alone */

void on_interrupt(unsigned value) {
    (void)value;
    interrupts = interrupts + 1;
    counter = counter + 1;
}

int main(void) {
    handler(interrupt_entry);
    for (int round = 0; round < ROUNDS; round++)
        counter = counter + 1;
    handler(0);
    return ROUNDS + interrupts - counter;
}
