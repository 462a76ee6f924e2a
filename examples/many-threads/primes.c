/* Forty threads count the primes below 1,000: each looks at 25 numbers, and adds what it finds to one word. Ends with 0 if all
   of them were started and the sum is right, and otherwise with the number of the thread that was refused, or with the sum. */
#include "delorean.h"

enum { WORKERS = 40, EACH = 25, PRIMES = 168 };

static unsigned found;
static struct stack stacks[WORKERS];

static unsigned is_prime(unsigned n) {
    for (unsigned d = 2; d * d <= n; d++)
        if (n % d == 0)
            return 0;
    return n > 1;
}

static unsigned count(unsigned first) {
    unsigned mine = 0;
    for (unsigned n = first; n < first + EACH; n++)
        mine += is_prime(n);
    __atomic_fetch_add(&found, mine, __ATOMIC_RELAXED);
    return mine;
}

int main(void) {
    unsigned threads[WORKERS];
    for (unsigned i = 0; i < WORKERS; i++) {
        threads[i] = start_thread(count, i * EACH, &stacks[i]);
        if (threads[i] == REFUSED)
            return i + 1;
    }
    for (unsigned i = 0; i < WORKERS; i++)
        join(threads[i]);
    return found == PRIMES ? 0 : found;
}
