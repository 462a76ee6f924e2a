/* pthreads and C11 threads: what they give and refuse. The same on the host. */
#define _GNU_SOURCE
#include <assert.h>
#include <errno.h>
#include <pthread.h>
#include <sched.h>
#include <semaphore.h>
#include <stdatomic.h>
#include <stdbool.h>
#include <stdint.h>
#include <stdio.h>
#include <stdlib.h>
#include <threads.h>
#include <time.h>
#include <unistd.h>

static _Thread_local int mine = 5;
static pthread_key_t key;
static _Atomic int gone, cleaned;
static pthread_mutex_t mutex = PTHREAD_MUTEX_INITIALIZER;
static pthread_cond_t cond = PTHREAD_COND_INITIALIZER;

static void destroy(void *value) { atomic_fetch_add(&gone, *(int *)value); }
static void clean(void *value) { atomic_fetch_add(&cleaned, *(int *)value); }

static void *work(void *argument) {
    assert(mine == 5 && errno == 0);
    mine = errno = *(int *)argument;
    pthread_setspecific(key, argument);
    pthread_cleanup_push(clean, argument);
    sched_yield();
    assert(mine == *(int *)argument && errno == mine && pthread_getspecific(key) == argument);
    if (*(int *)argument == 2)
        pthread_exit(&mine);
    pthread_cleanup_pop(1);
    return argument;
}

static void threads(void) {
    pthread_t t[3];
    int numbers[3] = {1, 2, 3};
    void *result;
    pthread_key_create(&key, destroy);
    for (int j = 0; j < 3; j++)
        assert(pthread_create(&t[j], NULL, work, &numbers[j]) == 0);
    for (int j = 0; j < 3; j++)
        assert(pthread_join(t[j], &result) == 0 && (j == 1 || result == &numbers[j]));
    printf("gone %d, cleaned %d\n", gone, cleaned);
    assert(pthread_equal(pthread_self(), pthread_self()) && !pthread_equal(pthread_self(), t[0]));
    assert(pthread_join(pthread_self(), NULL) == EDEADLK);
}

static struct timespec in(long microseconds) {
    struct timespec t;
    clock_gettime(CLOCK_REALTIME, &t);
    t.tv_nsec += microseconds * 1000;
    return t.tv_nsec >= 1000000000 ? (struct timespec){t.tv_sec + 1, t.tv_nsec - 1000000000} : t;
}

static void *try_all(void *argument) {
    struct timespec soon = in(50);
    assert(pthread_mutex_trylock(&mutex) == EBUSY);
    assert(pthread_mutex_timedlock(&mutex, &soon) == ETIMEDOUT);
    assert(pthread_rwlock_tryrdlock(argument) == EBUSY && pthread_rwlock_trywrlock(argument) == EBUSY);
    soon = in(50);
    assert(pthread_rwlock_timedrdlock(argument, &soon) == ETIMEDOUT);
    return NULL;
}

static void locks(void) {
    pthread_t t;
    pthread_rwlock_t rwlock = PTHREAD_RWLOCK_INITIALIZER;
    pthread_mutex_lock(&mutex);
    pthread_rwlock_wrlock(&rwlock);
    pthread_create(&t, NULL, try_all, &rwlock);
    pthread_join(t, NULL);
    pthread_rwlock_unlock(&rwlock);
    struct timespec soon = in(50);
    assert(pthread_cond_timedwait(&cond, &mutex, &soon) == ETIMEDOUT);
    pthread_mutex_unlock(&mutex);
    assert(pthread_rwlock_rdlock(&rwlock) == 0 && pthread_rwlock_tryrdlock(&rwlock) == 0 && pthread_rwlock_trywrlock(&rwlock) == EBUSY);
    pthread_rwlock_unlock(&rwlock);
    pthread_rwlock_unlock(&rwlock);
    assert(pthread_rwlock_trywrlock(&rwlock) == 0);
    sem_t semaphore;
    int value;
    sem_init(&semaphore, 0, 1);
    assert(sem_trywait(&semaphore) == 0 && sem_trywait(&semaphore) == -1 && errno == EAGAIN);
    soon = in(50);
    assert(sem_timedwait(&semaphore, &soon) == -1 && errno == ETIMEDOUT);
    sem_post(&semaphore);
    assert(sem_getvalue(&semaphore, &value) == 0 && value == 1);
    printf("locks\n");
}

static void *waits_for_post(void *argument) {
    sem_wait(argument);
    return argument;
}

/* Each clock is the same here, so this takes the one that the host's calls take too. */
static void until(void) {
    pthread_t t;
    sem_t semaphore;
    void *result;
    struct timespec soon = in(50);
    sem_init(&semaphore, 0, 0);
    assert(sem_clockwait(&semaphore, CLOCK_REALTIME, &soon) == -1 && errno == ETIMEDOUT);
    pthread_mutex_lock(&mutex);
    assert(pthread_cond_clockwait(&cond, &mutex, CLOCK_REALTIME, &soon) == ETIMEDOUT);
    pthread_mutex_unlock(&mutex);
    assert(pthread_mutex_clocklock(&mutex, CLOCK_REALTIME, &soon) == 0);
    pthread_mutex_unlock(&mutex);
    pthread_create(&t, NULL, waits_for_post, &semaphore);
    assert(pthread_tryjoin_np(t, NULL) == EBUSY && pthread_timedjoin_np(t, NULL, &soon) == ETIMEDOUT);
    sem_post(&semaphore);
    soon = in(900000);
    assert(pthread_timedjoin_np(t, &result, &soon) == 0 && result == &semaphore);
    printf("until\n");
}

static void *detached(void *argument) {
    sem_post(argument);
    return NULL;
}

static void attributes(void) {
    pthread_t t;
    pthread_attr_t a;
    int state;
    sem_t semaphore;
    sem_init(&semaphore, 0, 0);
    pthread_attr_init(&a);
    pthread_attr_setdetachstate(&a, PTHREAD_CREATE_DETACHED);
    assert(pthread_attr_getdetachstate(&a, &state) == 0 && state == PTHREAD_CREATE_DETACHED);
    assert(pthread_create(&t, &a, detached, &semaphore) == 0);
    sem_wait(&semaphore);
    assert(pthread_create(&t, NULL, detached, &semaphore) == 0 && pthread_detach(t) == 0);
    sem_wait(&semaphore);
    printf("attributes\n");
}

static mtx_t c11_mutex;
static cnd_t c11_cond;
static once_flag flag = ONCE_FLAG_INIT;
static int ready, onces;
static void count_once(void) { onces++; }

static int c11_work(void *argument) {
    call_once(&flag, count_once);
    mtx_lock(&c11_mutex);
    while (!ready)
        cnd_wait(&c11_cond, &c11_mutex);
    mtx_unlock(&c11_mutex);
    if (argument)
        thrd_exit(7);
    return 8;
}

static void c11(void) {
    thrd_t a, b;
    int first, second;
    assert(mtx_init(&c11_mutex, mtx_plain) == thrd_success && cnd_init(&c11_cond) == thrd_success);
    assert(thrd_create(&a, c11_work, NULL) == thrd_success && thrd_create(&b, c11_work, &a) == thrd_success);
    mtx_lock(&c11_mutex);
    ready = 1;
    cnd_broadcast(&c11_cond);
    mtx_unlock(&c11_mutex);
    assert(thrd_join(a, &first) == thrd_success && thrd_join(b, &second) == thrd_success);
    struct { void (*thrd_yield)(void); int (*lock)(mtx_t *), (*unlock)(mtx_t *); } own = {thrd_yield, mtx_lock, mtx_unlock};
    own.thrd_yield();
    thrd_yield();
    assert(own.lock(&c11_mutex) == thrd_success && mtx_trylock(&c11_mutex) == thrd_busy && own.unlock(&c11_mutex) == thrd_success);
    printf("c11 %d %d %d\n", first, second, onces);
}

struct pair { int a, b, c; };

static void atomics(void) {
    static atomic_bool boolean;
    static _Atomic uint8_t byte = 250;
    static _Atomic int16_t half = -3;
    static atomic_uint word = 7;
    static atomic_llong eight = -1;
    static _Atomic struct pair large;
    large = (struct pair){1, 2, 3};
    struct pair p = large;
    p.b = 5;
    large = p;
    assert(!atomic_exchange(&boolean, true) && boolean && ((struct pair)large).b == 5);
    assert(atomic_fetch_add(&byte, 10) == 250 && byte == 4 && atomic_fetch_sub(&half, 5) == -3 && half == -8);
    assert(atomic_fetch_or(&word, 8) == 7 && atomic_fetch_and(&word, 12) == 15 && atomic_fetch_xor(&word, 1) == 12 && word == 13);
    assert(atomic_fetch_add(&eight, 2) == -1 && eight == 1);
    long long expected = 1;
    uint8_t small = 9;
    assert(atomic_compare_exchange_strong(&eight, &expected, 1LL << 40) && eight == 1LL << 40);
    assert(!atomic_compare_exchange_strong(&byte, &small, 1) && small == 4 && atomic_compare_exchange_strong(&byte, &small, 1));
    atomic_flag once = ATOMIC_FLAG_INIT;
    assert(!atomic_flag_test_and_set(&once) && atomic_flag_test_and_set(&once));
    printf("atomics %d %d %u %lld\n", byte, half, word, (long long)eight);
}

static void older(void) {
    static unsigned char byte = 255;
    static short half = 7;
    static long long eight = 1;
    assert(__sync_fetch_and_add(&byte, 2) == 255 && byte == 1 && __sync_sub_and_fetch(&half, 8) == -1);
    assert(__sync_val_compare_and_swap(&eight, 1, 1LL << 33) == 1 && __sync_add_and_fetch(&eight, 1) == (1LL << 33) + 1);
    assert(!__sync_bool_compare_and_swap(&byte, 0, 9) && __sync_bool_compare_and_swap(&byte, 1, 9) && __sync_lock_test_and_set(&byte, 3) == 9);
    printf("older %d %d\n", byte, __sync_fetch_and_or(&half, 1));
}

static void times(void) {
    struct timespec before, after, span = {0, 30000};
    clock_gettime(CLOCK_MONOTONIC, &before);
    usleep(20);
    nanosleep(&span, NULL);
    clock_gettime(CLOCK_MONOTONIC, &after);
    long long passed = (after.tv_sec - before.tv_sec) * 1000000000LL + after.tv_nsec - before.tv_nsec;
    assert(passed >= 50000 && time(NULL) >= 0 && clock() != (clock_t)-1);
    printf("times\n");
}

int main(void) {
    threads();
    locks();
    until();
    attributes();
    c11();
    atomics();
    older();
    times();
    return 0;
}
