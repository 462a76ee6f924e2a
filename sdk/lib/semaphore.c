/* Semaphores: a word, which is taken from unless it is 0. */
#include "wait.h"

#include <errno.h>
#include <semaphore.h>

static int failed(int error) {
    errno = error;
    return -1;
}

int sem_init(sem_t *s, int shared, unsigned value) {
    (void)shared;
    if (value > SEM_VALUE_MAX)
        return failed(EINVAL);
    s->value = value;
    return 0;
}

int sem_destroy(sem_t *s) { (void)s; return 0; }

static int take_one(sem_t *s) {
    unsigned value;
    do {
        value = LOAD_RESERVED(s->value);
        if (value == 0) {
            GIVE_UP_RESERVATION();
            return 0;
        }
    } while (STORE_CONDITIONAL(s->value, value - 1));
    return 1;
}

int sem_trywait(sem_t *s) { return take_one(s) ? 0 : failed(EAGAIN); }

int sem_wait(sem_t *s) {
    while (!take_one(s)) {
        begin_wait(SEMAPHORE, s, CALLER);
        WAIT_WHILE(LOAD(s->value) == 0);
        end_wait();
    }
    return 0;
}

int sem_timedwait(sem_t *s, const struct timespec *until) {
    while (!take_one(s)) {
        int late = 0;
        begin_wait(SEMAPHORE, s, CALLER);
        WAIT_WHILE(LOAD(s->value) == 0 && !(late = __past(until)));
        end_wait();
        if (late)
            return failed(ETIMEDOUT);
    }
    return 0;
}

int sem_post(sem_t *s) { (void)ADD(s->value, 1); return 0; }
int sem_getvalue(sem_t *s, int *value) { *value = (int)LOAD(s->value); return 0; }
