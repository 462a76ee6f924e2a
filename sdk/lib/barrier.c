/* Barriers. One word has how many have come, and above that the round. */
#include "wait.h"

#include <errno.h>

int pthread_barrier_init(pthread_barrier_t *b, const pthread_barrierattr_t *a, unsigned needed) {
    (void)a;
    if (needed == 0 || needed > 0xFFFF)
        return EINVAL;
    *b = (pthread_barrier_t){0, needed};
    return 0;
}

int pthread_barrier_destroy(pthread_barrier_t *b) { return LOAD(b->word) & 0xFFFF ? EBUSY : 0; }

int pthread_barrier_wait(pthread_barrier_t *b) {
    unsigned word = ADD(b->word, 1), round = word >> 16;
    if ((word & 0xFFFF) + 1 == b->needed) {
        (void)SWAP(b->word, (round + 1) << 16);
        return PTHREAD_BARRIER_SERIAL_THREAD;
    }
    begin_wait(BARRIER, b, CALLER);
    WAIT_WHILE(LOAD(b->word) >> 16 == round);
    end_wait();
    return 0;
}

int pthread_barrierattr_init(pthread_barrierattr_t *a) { a->nothing = 0; return 0; }
int pthread_barrierattr_destroy(pthread_barrierattr_t *a) { (void)a; return 0; }
int pthread_barrierattr_setpshared(pthread_barrierattr_t *a, int shared) { (void)a; (void)shared; return 0; }
