/* A lock of readers and writers, in which a reader may become the writer. The bug is in line 23: it waits until it is the only
   reader, and goes on reading meanwhile, so two that want to write wait for one another. */
#include <pthread.h>

static pthread_mutex_t lock = PTHREAD_MUTEX_INITIALIZER;
static pthread_cond_t changed = PTHREAD_COND_INITIALIZER;
static int readers, entries;

static void begin_to_read(void) {
    pthread_mutex_lock(&lock);
    readers++;
    pthread_mutex_unlock(&lock);
}

static void begin_to_write(void) { /* and keeps the lock */
    pthread_mutex_lock(&lock);
#ifdef MENDED
    readers--;
    pthread_cond_broadcast(&changed);
    while (readers > 0)
        pthread_cond_wait(&changed, &lock);
#else
    while (readers > 1)
        pthread_cond_wait(&changed, &lock);
    readers--;
    pthread_cond_broadcast(&changed);
#endif
}

static void *work(void *unused) {
    begin_to_read();
    int is_missing = entries == 0;
    begin_to_write();
    if (is_missing && entries == 0)
        entries++;
    pthread_mutex_unlock(&lock);
    return unused;
}

int main(void) {
    pthread_t a, b;
    pthread_create(&a, NULL, work, NULL);
    pthread_create(&b, NULL, work, NULL);
    pthread_join(a, NULL);
    pthread_join(b, NULL);
    return entries == 1 ? 0 : 1;
}
