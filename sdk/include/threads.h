/* C11 threads, each call by the one of pthread.h; those that wait, or that others wait for, are macros too. */
#ifndef DELOREAN_THREADS_H
#define DELOREAN_THREADS_H

#include <errno.h>
#include <pthread.h>
#include <stdint.h>
#include <time.h>

typedef pthread_t thrd_t;
typedef pthread_mutex_t mtx_t;
typedef pthread_cond_t cnd_t;
typedef pthread_key_t tss_t;
typedef pthread_once_t once_flag;
typedef int (*thrd_start_t)(void *);
typedef void (*tss_dtor_t)(void *);
enum { thrd_success, thrd_busy, thrd_error, thrd_nomem, thrd_timedout };
enum { mtx_plain = 0, mtx_recursive = 1, mtx_timed = 2 };
#ifndef __cplusplus
#define thread_local _Thread_local
#endif
#define ONCE_FLAG_INIT PTHREAD_ONCE_INIT
#define TSS_DTOR_ITERATIONS PTHREAD_DESTRUCTOR_ITERATIONS

static inline int __delorean_thrd(int error) {
    switch (error) {
    case 0: return thrd_success;
    case EBUSY: return thrd_busy;
    case ETIMEDOUT: return thrd_timedout;
    case EAGAIN: return thrd_nomem;
    default: return thrd_error;
    }
}

static inline int thrd_join(thrd_t thread, int *code) {
    void *result = NULL;
    int error = pthread_join(thread, &result);
    if (code && error == 0)
        *code = (int)(intptr_t)result;
    return __delorean_thrd(error);
}

static inline int mtx_init(mtx_t *mutex, int kind) {
    pthread_mutexattr_t a = {kind & mtx_recursive ? PTHREAD_MUTEX_RECURSIVE : PTHREAD_MUTEX_NORMAL};
    return __delorean_thrd(pthread_mutex_init(mutex, &a));
}

static inline thrd_t thrd_current(void) { return pthread_self(); }
static inline int thrd_equal(thrd_t a, thrd_t b) { return pthread_equal(a, b); }
static inline int thrd_detach(thrd_t thread) { return __delorean_thrd(pthread_detach(thread)); }
static inline void thrd_yield(void) { (void)sched_yield(); }
static inline int thrd_sleep(const struct timespec *span, struct timespec *left) { return nanosleep(span, left); }
static inline void mtx_destroy(mtx_t *mutex) { (void)pthread_mutex_destroy(mutex); }
static inline int cnd_init(cnd_t *cond) { return __delorean_thrd(pthread_cond_init(cond, NULL)); }
static inline void cnd_destroy(cnd_t *cond) { (void)pthread_cond_destroy(cond); }
static inline int tss_create(tss_t *key, tss_dtor_t destructor) { return __delorean_thrd(pthread_key_create(key, destructor)); }
static inline void *tss_get(tss_t key) { return (void *)pthread_getspecific(key); }
static inline int tss_set(tss_t key, void *value) { return __delorean_thrd(pthread_setspecific(key, value)); }
static inline void tss_delete(tss_t key) { (void)pthread_key_delete(key); }

/* These are functions, for whoever takes their address; calls of them are the macros below, which have the line of the caller. */
static inline int thrd_create(thrd_t *thread, thrd_start_t function, void *argument) {
    return __delorean_thrd(pthread_create(thread, NULL, (void *(*)(void *))function, argument));
}
_Noreturn static inline void thrd_exit(int code) { pthread_exit((void *)(intptr_t)code); }
static inline int mtx_lock(mtx_t *mutex) { return __delorean_thrd(pthread_mutex_lock(mutex)); }
static inline int mtx_trylock(mtx_t *mutex) { return __delorean_thrd(pthread_mutex_trylock(mutex)); }
static inline int mtx_timedlock(mtx_t *mutex, const struct timespec *until) {
    return __delorean_thrd(pthread_mutex_timedlock(mutex, until));
}
static inline int mtx_unlock(mtx_t *mutex) { return __delorean_thrd(pthread_mutex_unlock(mutex)); }
static inline int cnd_signal(cnd_t *cond) { return __delorean_thrd(pthread_cond_signal(cond)); }
static inline int cnd_broadcast(cnd_t *cond) { return __delorean_thrd(pthread_cond_broadcast(cond)); }
static inline int cnd_wait(cnd_t *cond, mtx_t *mutex) { return __delorean_thrd(pthread_cond_wait(cond, mutex)); }
static inline int cnd_timedwait(cnd_t *cond, mtx_t *mutex, const struct timespec *until) {
    return __delorean_thrd(pthread_cond_timedwait(cond, mutex, until));
}
static inline void call_once(once_flag *flag, void (*function)(void)) { (void)pthread_once(flag, function); }

#define thrd_create(thread, function, argument) \
    __delorean_thrd(pthread_create((thread), NULL, (void *(*)(void *))(thrd_start_t)(function), (argument)))
#define thrd_exit(code) pthread_exit((void *)(intptr_t)(code))
#define mtx_lock(mutex) __delorean_thrd(pthread_mutex_lock(mutex))
#define mtx_trylock(mutex) __delorean_thrd(pthread_mutex_trylock(mutex))
#define mtx_timedlock(mutex, until) __delorean_thrd(pthread_mutex_timedlock((mutex), (until)))
#define mtx_unlock(mutex) __delorean_thrd(pthread_mutex_unlock(mutex))
#define cnd_signal(cond) __delorean_thrd(pthread_cond_signal(cond))
#define cnd_broadcast(cond) __delorean_thrd(pthread_cond_broadcast(cond))
#define cnd_wait(cond, mutex) __delorean_thrd(pthread_cond_wait((cond), (mutex)))
#define cnd_timedwait(cond, mutex, until) __delorean_thrd(pthread_cond_timedwait((cond), (mutex), (until)))
#define call_once(flag, function) ((void)pthread_once((flag), (function)))

int timespec_get(struct timespec *, int);
#ifndef TIME_UTC
#define TIME_UTC 1
#endif

#endif
