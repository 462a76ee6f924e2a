/* A writer is alone; readers see whole writes. WRITERS threads write, and READERS read. */
#include <assert.h>
#include <pthread.h>

static pthread_rwlock_t lock = PTHREAD_RWLOCK_INITIALIZER;
static int a, b;

static void *write_both(void *argument) {
    pthread_rwlock_wrlock(&lock);
    assert(a == b);
    a++;
    b++;
    pthread_rwlock_unlock(&lock);
    return argument;
}

static void *read_both(void *argument) {
    if (argument ? pthread_rwlock_rdlock(&lock) == 0 : pthread_rwlock_tryrdlock(&lock) == 0) {
        assert(a == b);
        pthread_rwlock_unlock(&lock);
    }
    return argument;
}

int main(void) {
    pthread_t threads[WRITERS + READERS];
    for (int j = 0; j < WRITERS + READERS; j++)
        pthread_create(&threads[j], 0, j < WRITERS ? write_both : read_both, j == WRITERS ? &lock : 0);
    for (int j = 0; j < WRITERS + READERS; j++)
        pthread_join(threads[j], 0);
    assert(a == WRITERS && b == WRITERS);
    assert(pthread_rwlock_trywrlock(&lock) == 0);
    return 0;
}
