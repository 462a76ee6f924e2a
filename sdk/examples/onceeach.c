/* A counter is to be set up once. The bug is in line 18: `once` is a variable of each call's own, so two threads that find
   nothing both set the counter up, one of them after the other has begun to count. */
#include <assert.h>
#include <pthread.h>
#include <stdatomic.h>

static atomic_int count;

static void set_up(void) { atomic_store(&count, 10); }

static void *work(void *unused) {
#ifdef MENDED
    static pthread_once_t once = PTHREAD_ONCE_INIT;
#else
    pthread_once_t once = PTHREAD_ONCE_INIT;
#endif
    if (atomic_load(&count) == 0)
        pthread_once(&once, set_up);
    atomic_fetch_add(&count, 1);
    return unused;
}

int main(void) {
    pthread_t a, b;
    pthread_create(&a, NULL, work, NULL);
    pthread_create(&b, NULL, work, NULL);
    pthread_join(a, NULL);
    pthread_join(b, NULL);
    assert(count == 12);
    return 0;
}
