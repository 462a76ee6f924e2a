/* A lock by tickets, for up to three threads. The bug is in line 16: tickets have one bit, so the third thread has the number
   of the first one, and enters while that is inside. */
#include <assert.h>
#include <pthread.h>
#include <stdatomic.h>

#ifdef MENDED
enum { TICKETS = 4 };
#else
enum { TICKETS = 2 };
#endif

static atomic_uint next, serving, inside;

static void lock(void) {
    unsigned mine = atomic_fetch_add(&next, 1) % TICKETS;
    while (atomic_load(&serving) % TICKETS != mine)
        ;
}

static void unlock(void) { atomic_fetch_add(&serving, 1); }

static void *work(void *unused) {
    lock();
    assert(atomic_fetch_add(&inside, 1) == 0);
    atomic_fetch_sub(&inside, 1);
    unlock();
    return unused;
}

int main(void) {
    pthread_t threads[3];
    for (int j = 0; j < 3; j++)
        pthread_create(&threads[j], NULL, work, NULL);
    for (int j = 0; j < 3; j++)
        pthread_join(threads[j], NULL);
    return 0;
}
