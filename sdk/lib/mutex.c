/* Mutexes. The word is taken by one exchange; `owner` and `depth` are only used by those that are recursive or check for errors. */
#include "wait.h"

#include <errno.h>

static unsigned self(void) { return (unsigned)(uintptr_t)me(); }

int __delorean_took(pthread_mutex_t *m) {
    __note_held(m, MUTEX, CALLER);
    return 0;
}

static void wait_until_free(pthread_mutex_t *m, void *at) {
    begin_wait(MUTEX, m, at);
    WAIT_WHILE(LOAD(m->word));
    end_wait();
}

void __delorean_wait(pthread_mutex_t *m) { wait_until_free(m, CALLER); }

static void own(pthread_mutex_t *m, void *at) {
    if (m->kind != PTHREAD_MUTEX_NORMAL)
        m->owner = self();
    __note_held(m, MUTEX, at);
}

static int lock_again(pthread_mutex_t *m) {
    if (m->kind == PTHREAD_MUTEX_ERRORCHECK)
        return EDEADLK;
    m->depth++;
    return 0;
}

static int has_it(const pthread_mutex_t *m) { return m->kind != PTHREAD_MUTEX_NORMAL && m->owner == self(); }

int __lock_mutex(pthread_mutex_t *m, void *at) {
    if (has_it(m))
        return lock_again(m);
    while (DELOREAN_TAKE(m->word))
        wait_until_free(m, at);
    own(m, at);
    return 0;
}

int __delorean_lock(pthread_mutex_t *m) { return __lock_mutex(m, CALLER); }
#undef pthread_mutex_lock
int pthread_mutex_lock(pthread_mutex_t *m) { return __lock_mutex(m, CALLER); }

/* 0 if the word is to be cleared now, an error, or -1 if it is still held once less. */
int __delorean_gives(pthread_mutex_t *m) {
    if (m->kind != PTHREAD_MUTEX_NORMAL) {
        if (!has_it(m))
            return EPERM;
        if (m->depth) {
            m->depth--;
            return -1;
        }
        m->owner = 0;
    }
    __note_given(m);
    return 0;
}

#undef pthread_mutex_unlock
int pthread_mutex_unlock(pthread_mutex_t *m) {
    int result = __delorean_gives(m);
    if (result == 0)
        DELOREAN_GIVE(m->word);
    return result < 0 ? 0 : result;
}

static int try(pthread_mutex_t *m, void *at) {
    if (has_it(m))
        return m->kind == PTHREAD_MUTEX_RECURSIVE ? lock_again(m) : EBUSY;
    if (SWAP(m->word, 1))
        return EBUSY;
    own(m, at);
    return 0;
}

int pthread_mutex_trylock(pthread_mutex_t *m) { return try(m, CALLER); }

static int is_late(pthread_mutex_t *m, const struct timespec *until, void *at) {
    int late = 0;
    begin_wait(MUTEX, m, at);
    WAIT_WHILE(LOAD(m->word) && !(late = __past(until)));
    end_wait();
    return late;
}

int pthread_mutex_timedlock(pthread_mutex_t *m, const struct timespec *until) {
    if (has_it(m))
        return lock_again(m);
    while (SWAP(m->word, 1))
        if (is_late(m, until, CALLER))
            return ETIMEDOUT;
    own(m, CALLER);
    return 0;
}

int pthread_mutex_init(pthread_mutex_t *m, const pthread_mutexattr_t *a) {
    *m = (pthread_mutex_t){.kind = a ? a->kind : PTHREAD_MUTEX_NORMAL};
    return 0;
}

int pthread_mutex_destroy(pthread_mutex_t *m) { return LOAD(m->word) ? EBUSY : 0; }

int pthread_mutexattr_settype(pthread_mutexattr_t *a, int kind) {
    if (kind < PTHREAD_MUTEX_NORMAL || kind > PTHREAD_MUTEX_ERRORCHECK)
        return EINVAL;
    a->kind = (unsigned)kind;
    return 0;
}

int pthread_mutexattr_gettype(const pthread_mutexattr_t *a, int *kind) { *kind = (int)a->kind; return 0; }
int pthread_mutexattr_init(pthread_mutexattr_t *a) { a->kind = PTHREAD_MUTEX_NORMAL; return 0; }
int pthread_mutexattr_destroy(pthread_mutexattr_t *a) { (void)a; return 0; }
int pthread_mutexattr_setpshared(pthread_mutexattr_t *a, int shared) { (void)a; (void)shared; return 0; }
