/* pthread_once. */
#include "wait.h"

enum { RUNS = 1, DONE = 3 };

int pthread_once(pthread_once_t *o, void (*function)(void)) {
    unsigned was = __atomic_fetch_or(&o->word, RUNS, __ATOMIC_SEQ_CST);
    if (was == 0) {
        function();
        (void)SWAP(o->word, DONE);
    } else if (was == RUNS) {
        begin_wait(ONCE, o, CALLER);
        WAIT_WHILE(LOAD(o->word) != DONE);
        end_wait();
    }
    return 0;
}
