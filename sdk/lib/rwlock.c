/* Locks of readers and writers. Neither has precedence: whoever finds the lock free for it takes it. */
#include "wait.h"

#include <errno.h>

enum { WRITES = 0x80000000 };

int pthread_rwlock_init(pthread_rwlock_t *l, const pthread_rwlockattr_t *a) { (void)a; l->word = 0; return 0; }
int pthread_rwlock_destroy(pthread_rwlock_t *l) { return LOAD(l->word) ? EBUSY : 0; }

static int is_busy(void) {
    GIVE_UP_RESERVATION();
    return EBUSY;
}

static int try_to_read(pthread_rwlock_t *l, void *at) {
    unsigned word;
    do {
        word = LOAD_RESERVED(l->word);
        if (word & WRITES)
            return is_busy();
    } while (STORE_CONDITIONAL(l->word, word + 1));
    __note_held(l, READ_LOCK, at);
    return 0;
}

static int try_to_write(pthread_rwlock_t *l, void *at) {
    do
        if (LOAD_RESERVED(l->word))
            return is_busy();
    while (STORE_CONDITIONAL(l->word, WRITES));
    __note_held(l, WRITE_LOCK, at);
    return 0;
}

int pthread_rwlock_tryrdlock(pthread_rwlock_t *l) { return try_to_read(l, CALLER); }
int pthread_rwlock_trywrlock(pthread_rwlock_t *l) { return try_to_write(l, CALLER); }

int pthread_rwlock_rdlock(pthread_rwlock_t *l) {
    while (try_to_read(l, CALLER)) {
        begin_wait(READ_LOCK, l, CALLER);
        WAIT_WHILE(LOAD(l->word) & WRITES);
        end_wait();
    }
    return 0;
}

int pthread_rwlock_wrlock(pthread_rwlock_t *l) {
    while (try_to_write(l, CALLER)) {
        begin_wait(WRITE_LOCK, l, CALLER);
        WAIT_WHILE(LOAD(l->word));
        end_wait();
    }
    return 0;
}

static int is_late(pthread_rwlock_t *l, unsigned who, const struct timespec *until, enum noted what, void *at) {
    int late = 0;
    begin_wait(what, l, at);
    WAIT_WHILE(LOAD(l->word) & who && !(late = __past(until)));
    end_wait();
    return late;
}

int pthread_rwlock_timedrdlock(pthread_rwlock_t *l, const struct timespec *until) {
    while (try_to_read(l, CALLER))
        if (is_late(l, WRITES, until, READ_LOCK, CALLER))
            return ETIMEDOUT;
    return 0;
}

int pthread_rwlock_timedwrlock(pthread_rwlock_t *l, const struct timespec *until) {
    while (try_to_write(l, CALLER))
        if (is_late(l, ~0u, until, WRITE_LOCK, CALLER))
            return ETIMEDOUT;
    return 0;
}

/* How it was held is in the thread's notes; if it isn't, the word says so, because while there is a writer there are no readers. */
int pthread_rwlock_unlock(pthread_rwlock_t *l) {
    enum noted how = __note_given(l);
    if (how == WRITE_LOCK || (how == NOTHING && LOAD(l->word) & WRITES))
        (void)SWAP(l->word, 0);
    else
        (void)ADD(l->word, -1);
    return 0;
}

int pthread_rwlockattr_init(pthread_rwlockattr_t *a) { a->nothing = 0; return 0; }
int pthread_rwlockattr_destroy(pthread_rwlockattr_t *a) { (void)a; return 0; }
int pthread_rwlockattr_setpshared(pthread_rwlockattr_t *a, int shared) { (void)a; (void)shared; return 0; }
