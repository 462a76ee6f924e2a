/* A counter is raised under a lock that is only tried. The bug is in line 15: whether the lock was taken isn't looked at, so a
   thread may go in while another is there, and give back that one's lock. */
#include <assert.h>
#include <pthread.h>

static pthread_mutex_t lock = PTHREAD_MUTEX_INITIALIZER;
static volatile int count;
static int raised;

static void *work(void *unused) {
#ifdef MENDED
    if (pthread_mutex_trylock(&lock) != 0)
        return unused;
#else
    pthread_mutex_trylock(&lock);
#endif
    count = count + 1;
    __atomic_fetch_add(&raised, 1, __ATOMIC_SEQ_CST);
    pthread_mutex_unlock(&lock);
    return unused;
}

int main(void) {
    pthread_t a, b;
    pthread_create(&a, NULL, work, NULL);
    pthread_create(&b, NULL, work, NULL);
    pthread_join(a, NULL);
    pthread_join(b, NULL);
    assert(count == raised);
    return 0;
}
