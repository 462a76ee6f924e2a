/* Spin locks: mutexes without kinds. */
#include "wait.h"

#include <errno.h>

int pthread_spin_init(pthread_spinlock_t *l, int shared) { (void)shared; *l = 0; return 0; }
int pthread_spin_destroy(pthread_spinlock_t *l) { return *l ? EBUSY : 0; }

int pthread_spin_lock(pthread_spinlock_t *l) {
    while (DELOREAN_TAKE(*l)) {
        begin_wait(SPIN_LOCK, (void *)l, CALLER);
        WAIT_WHILE(*l);
        end_wait();
    }
    __note_held((void *)l, SPIN_LOCK, CALLER);
    return 0;
}

int pthread_spin_trylock(pthread_spinlock_t *l) {
    if (SWAP(*l, 1))
        return EBUSY;
    __note_held((void *)l, SPIN_LOCK, CALLER);
    return 0;
}

int pthread_spin_unlock(pthread_spinlock_t *l) {
    __note_given((void *)l);
    DELOREAN_GIVE(*l);
    return 0;
}
