/* POSIX threads on the kernel of delorean. A lock is a word that one atomic exchange takes; whoever waits looks at a word in a loop
   that changes nothing. Taking and giving back a mutex are macros, so that these instructions have the source lines of the caller. */
#ifndef DELOREAN_PTHREAD_H
#define DELOREAN_PTHREAD_H

#include <delorean/lock.h>
#include <delorean/missing.h>
#include <sched.h>
#include <stddef.h>
#include <time.h>

#define PTHREAD_KEYS_MAX 16
#define PTHREAD_STACK_MIN 512
#define PTHREAD_DESTRUCTOR_ITERATIONS 4
#define PTHREAD_BARRIER_SERIAL_THREAD (-1)

typedef unsigned long pthread_t;                                       /* the address of the thread's block */
typedef struct { unsigned word, kind, owner, depth; } pthread_mutex_t; /* word: 1 while it is held */
typedef struct { unsigned word; } pthread_cond_t;                      /* the next that is woken, and the next that comes << 16 */
typedef struct { unsigned word, needed; } pthread_barrier_t;           /* how many have come, and the round << 16 */
typedef struct { unsigned word; } pthread_rwlock_t;                    /* the number of readers, or 0x80000000 */
typedef struct { unsigned word; } pthread_once_t;                      /* 1 while the function runs, 3 once it has */
typedef volatile unsigned pthread_spinlock_t;
typedef unsigned pthread_key_t;
typedef struct { unsigned kind; } pthread_mutexattr_t;
typedef struct { unsigned clock; } pthread_condattr_t;
typedef struct { unsigned detached; size_t stack; } pthread_attr_t;
typedef struct { unsigned nothing; } pthread_barrierattr_t, pthread_rwlockattr_t;

enum { PTHREAD_MUTEX_NORMAL, PTHREAD_MUTEX_RECURSIVE, PTHREAD_MUTEX_ERRORCHECK, PTHREAD_MUTEX_DEFAULT = 0 };
enum { PTHREAD_MUTEX_TIMED_NP, PTHREAD_MUTEX_RECURSIVE_NP, PTHREAD_MUTEX_ERRORCHECK_NP, PTHREAD_MUTEX_ADAPTIVE_NP = 0 };
enum { PTHREAD_CREATE_JOINABLE, PTHREAD_CREATE_DETACHED };
enum { PTHREAD_PROCESS_PRIVATE, PTHREAD_PROCESS_SHARED };
enum { PTHREAD_MUTEX_STALLED, PTHREAD_MUTEX_ROBUST }; /* these lead to the sentences at the end */
enum { PTHREAD_PRIO_NONE, PTHREAD_PRIO_INHERIT, PTHREAD_PRIO_PROTECT };
enum { PTHREAD_RWLOCK_PREFER_READER_NP, PTHREAD_RWLOCK_PREFER_WRITER_NP, PTHREAD_RWLOCK_PREFER_WRITER_NONRECURSIVE_NP };
enum { PTHREAD_CANCEL_ENABLE, PTHREAD_CANCEL_DISABLE, PTHREAD_CANCEL_DEFERRED = 0, PTHREAD_CANCEL_ASYNCHRONOUS };
#define PTHREAD_MUTEX_INITIALIZER {0, 0, 0, 0}
#define PTHREAD_RECURSIVE_MUTEX_INITIALIZER_NP {0, PTHREAD_MUTEX_RECURSIVE, 0, 0}
#define PTHREAD_ERRORCHECK_MUTEX_INITIALIZER_NP {0, PTHREAD_MUTEX_ERRORCHECK, 0, 0}
#define PTHREAD_COND_INITIALIZER {0}
#define PTHREAD_RWLOCK_INITIALIZER {0}
#define PTHREAD_ONCE_INIT {0}

int pthread_create(pthread_t *, const pthread_attr_t *, void *(*)(void *), void *);
int pthread_join(pthread_t, void **);
int pthread_tryjoin_np(pthread_t, void **);
int pthread_timedjoin_np(pthread_t, void **, const struct timespec *);
int pthread_detach(pthread_t);
_Noreturn void pthread_exit(void *);
pthread_t pthread_self(void);
int pthread_equal(pthread_t, pthread_t);
int pthread_yield(void);
int pthread_setname_np(pthread_t, const char *);

int pthread_attr_init(pthread_attr_t *);
int pthread_attr_destroy(pthread_attr_t *);
int pthread_attr_setdetachstate(pthread_attr_t *, int);
int pthread_attr_getdetachstate(const pthread_attr_t *, int *);
int pthread_attr_setstacksize(pthread_attr_t *, size_t); /* EINVAL if it is more than delorean-cc --stack gives */
int pthread_attr_getstacksize(const pthread_attr_t *, size_t *);

int pthread_mutex_init(pthread_mutex_t *, const pthread_mutexattr_t *);
int pthread_mutex_destroy(pthread_mutex_t *);
int pthread_mutex_lock(pthread_mutex_t *);
int pthread_mutex_trylock(pthread_mutex_t *);
int pthread_mutex_timedlock(pthread_mutex_t *, const struct timespec *);
int pthread_mutex_clocklock(pthread_mutex_t *, clockid_t, const struct timespec *);
int pthread_mutex_unlock(pthread_mutex_t *);
int pthread_mutexattr_init(pthread_mutexattr_t *);
int pthread_mutexattr_destroy(pthread_mutexattr_t *);
int pthread_mutexattr_settype(pthread_mutexattr_t *, int);
int pthread_mutexattr_gettype(const pthread_mutexattr_t *, int *);
int pthread_mutexattr_setpshared(pthread_mutexattr_t *, int);

int pthread_cond_init(pthread_cond_t *, const pthread_condattr_t *);
int pthread_cond_destroy(pthread_cond_t *);
int pthread_cond_wait(pthread_cond_t *, pthread_mutex_t *);
int pthread_cond_timedwait(pthread_cond_t *, pthread_mutex_t *, const struct timespec *);
int pthread_cond_clockwait(pthread_cond_t *, pthread_mutex_t *, clockid_t, const struct timespec *);
int pthread_cond_signal(pthread_cond_t *);
int pthread_cond_broadcast(pthread_cond_t *);
int pthread_condattr_init(pthread_condattr_t *);
int pthread_condattr_destroy(pthread_condattr_t *);
int pthread_condattr_setclock(pthread_condattr_t *, clockid_t);
int pthread_condattr_getclock(const pthread_condattr_t *, clockid_t *);
int pthread_condattr_setpshared(pthread_condattr_t *, int);

int pthread_barrier_init(pthread_barrier_t *, const pthread_barrierattr_t *, unsigned);
int pthread_barrier_destroy(pthread_barrier_t *);
int pthread_barrier_wait(pthread_barrier_t *);
int pthread_barrierattr_init(pthread_barrierattr_t *);
int pthread_barrierattr_destroy(pthread_barrierattr_t *);
int pthread_barrierattr_setpshared(pthread_barrierattr_t *, int);

int pthread_rwlock_init(pthread_rwlock_t *, const pthread_rwlockattr_t *);
int pthread_rwlock_destroy(pthread_rwlock_t *);
int pthread_rwlock_rdlock(pthread_rwlock_t *);
int pthread_rwlock_tryrdlock(pthread_rwlock_t *);
int pthread_rwlock_timedrdlock(pthread_rwlock_t *, const struct timespec *);
int pthread_rwlock_clockrdlock(pthread_rwlock_t *, clockid_t, const struct timespec *);
int pthread_rwlock_wrlock(pthread_rwlock_t *);
int pthread_rwlock_trywrlock(pthread_rwlock_t *);
int pthread_rwlock_timedwrlock(pthread_rwlock_t *, const struct timespec *);
int pthread_rwlock_clockwrlock(pthread_rwlock_t *, clockid_t, const struct timespec *);
int pthread_rwlock_unlock(pthread_rwlock_t *);
int pthread_rwlockattr_init(pthread_rwlockattr_t *);
int pthread_rwlockattr_destroy(pthread_rwlockattr_t *);
int pthread_rwlockattr_setpshared(pthread_rwlockattr_t *, int);

int pthread_spin_init(pthread_spinlock_t *, int);
int pthread_spin_destroy(pthread_spinlock_t *);
int pthread_spin_lock(pthread_spinlock_t *);
int pthread_spin_trylock(pthread_spinlock_t *);
int pthread_spin_unlock(pthread_spinlock_t *);

int pthread_once(pthread_once_t *, void (*)(void));
int pthread_key_create(pthread_key_t *, void (*)(void *));
int pthread_key_delete(pthread_key_t);
int pthread_setspecific(pthread_key_t, const void *);
void *pthread_getspecific(pthread_key_t);

/* Nobody can be cancelled, so these are all that a program needs which never cancels a thread. */
int pthread_setcancelstate(int, int *);
int pthread_setcanceltype(int, int *);
void pthread_testcancel(void);
struct __delorean_cleanup { void (*function)(void *); void *argument; struct __delorean_cleanup *before; };
void __delorean_push(struct __delorean_cleanup *);
void __delorean_pop(struct __delorean_cleanup *, int);
#define pthread_cleanup_push(function, argument) \
    { struct __delorean_cleanup cleanup_ = {(function), (argument), 0}; __delorean_push(&cleanup_);
#define pthread_cleanup_pop(run) __delorean_pop(&cleanup_, (run)); }

int pthread_cancel(pthread_t) DELOREAN_MISSING("a thread can't be cancelled: let it look at a flag");
int pthread_atfork(void (*)(void), void (*)(void), void (*)(void)) DELOREAN_MISSING("there is one process, and no fork");
int pthread_mutexattr_setrobust(pthread_mutexattr_t *, int) DELOREAN_MISSING("there are no robust mutexes");
int pthread_mutex_consistent(pthread_mutex_t *) DELOREAN_MISSING("there are no robust mutexes");
int pthread_mutexattr_setprotocol(pthread_mutexattr_t *, int) DELOREAN_MISSING("threads have no priorities");
int pthread_mutexattr_setprioceiling(pthread_mutexattr_t *, int) DELOREAN_MISSING("threads have no priorities");
int pthread_rwlockattr_setkind_np(pthread_rwlockattr_t *, int) DELOREAN_MISSING("nobody comes first at a lock of readers and writers");
int pthread_setaffinity_np(pthread_t, size_t, const cpu_set_t *) DELOREAN_MISSING("threads have no processors of their own");
int pthread_setschedparam(pthread_t, int, const struct sched_param *) DELOREAN_MISSING("threads have no priorities");
int pthread_attr_setschedpolicy(pthread_attr_t *, int) DELOREAN_MISSING("threads have no priorities");
int pthread_attr_setschedparam(pthread_attr_t *, const struct sched_param *) DELOREAN_MISSING("threads have no priorities");
int pthread_attr_setstack(pthread_attr_t *, void *, size_t) DELOREAN_MISSING("stacks are the library's: give delorean-cc --stack");

/* What the macros leave to the library: it notes who holds a mutex, and waits. */
int __delorean_took(pthread_mutex_t *);
void __delorean_wait(pthread_mutex_t *);
int __delorean_lock(pthread_mutex_t *);
int __delorean_gives(pthread_mutex_t *);

#define pthread_mutex_lock(mutex) \
    __extension__({ \
        pthread_mutex_t *m_ = (mutex); \
        if (m_->kind == PTHREAD_MUTEX_NORMAL) \
            while (DELOREAN_TAKE(m_->word)) \
                __delorean_wait(m_); \
        m_->kind == PTHREAD_MUTEX_NORMAL ? __delorean_took(m_) : __delorean_lock(m_); \
    })
#define pthread_mutex_unlock(mutex) \
    __extension__({ \
        pthread_mutex_t *m_ = (mutex); \
        int r_ = __delorean_gives(m_); \
        if (r_ == 0) \
            DELOREAN_GIVE(m_->word); \
        r_ < 0 ? 0 : r_; \
    })

#endif
