/* Waits until a time of the clock that is named: all clocks are the same. */
#include <pthread.h>
#include <semaphore.h>

int pthread_mutex_clocklock(pthread_mutex_t *m, clockid_t clock, const struct timespec *until) {
    (void)clock;
    return pthread_mutex_timedlock(m, until);
}

int pthread_cond_clockwait(pthread_cond_t *c, pthread_mutex_t *m, clockid_t clock, const struct timespec *until) {
    (void)clock;
    return pthread_cond_timedwait(c, m, until);
}

int pthread_rwlock_clockrdlock(pthread_rwlock_t *l, clockid_t clock, const struct timespec *until) {
    (void)clock;
    return pthread_rwlock_timedrdlock(l, until);
}

int pthread_rwlock_clockwrlock(pthread_rwlock_t *l, clockid_t clock, const struct timespec *until) {
    (void)clock;
    return pthread_rwlock_timedwrlock(l, until);
}

int sem_clockwait(sem_t *s, clockid_t clock, const struct timespec *until) {
    (void)clock;
    return sem_timedwait(s, until);
}
