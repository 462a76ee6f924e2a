/* Mutexes of the other kinds, by functions and not by the macros of the fast path. */
#include <assert.h>
#include <errno.h>
#include <pthread.h>

static pthread_mutex_t mutex;
static int inside, count;

static void visit(void) {
    assert(inside == 0);
    inside = 1;
    count++;
    inside = 0;
}

static void again(void) {
#if KIND == 1
    assert((pthread_mutex_lock)(&mutex) == 0);
    visit();
    assert((pthread_mutex_unlock)(&mutex) == 0);
#elif KIND == 2
    assert((pthread_mutex_lock)(&mutex) == EDEADLK);
    assert((pthread_mutex_trylock)(&mutex) == EBUSY);
#endif
}

static void *work(void *argument) {
    assert((pthread_mutex_lock)(&mutex) == 0);
    visit();
    again();
    visit();
    assert((pthread_mutex_unlock)(&mutex) == 0);
#if KIND
    assert((pthread_mutex_unlock)(&mutex) == EPERM);
#endif
    if (pthread_mutex_trylock(&mutex) == 0) {
        visit();
        pthread_mutex_unlock(&mutex);
    }
    return argument;
}

int main(void) {
    pthread_t threads[THREADS];
    pthread_mutexattr_t attributes;
    pthread_mutexattr_init(&attributes);
    pthread_mutexattr_settype(&attributes, KIND);
    pthread_mutex_init(&mutex, &attributes);
    for (int j = 0; j < THREADS; j++)
        pthread_create(&threads[j], 0, work, 0);
    for (int j = 0; j < THREADS; j++)
        pthread_join(threads[j], 0);
    assert(count >= THREADS * 2 && count <= THREADS * 4);
    return 0;
}
