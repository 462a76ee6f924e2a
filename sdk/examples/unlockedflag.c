/* A thread waits until a flag is set. The bug is in line 16: the flag is set and signalled without the lock, so both may happen
   after the waiter has looked at the flag and before it sleeps. */
#include <pthread.h>

static pthread_mutex_t lock = PTHREAD_MUTEX_INITIALIZER;
static pthread_cond_t changed = PTHREAD_COND_INITIALIZER;
static volatile int is_done;

static void *finish(void *unused) {
#ifdef MENDED
    pthread_mutex_lock(&lock);
    is_done = 1;
    pthread_cond_signal(&changed);
    pthread_mutex_unlock(&lock);
#else
    is_done = 1;
    pthread_cond_signal(&changed);
#endif
    return unused;
}

static void *wait_for_it(void *unused) {
    pthread_mutex_lock(&lock);
    while (!is_done)
        pthread_cond_wait(&changed, &lock);
    pthread_mutex_unlock(&lock);
    return unused;
}

int main(void) {
    pthread_t a, b;
    pthread_create(&a, NULL, wait_for_it, NULL);
    pthread_create(&b, NULL, finish, NULL);
    pthread_join(a, NULL);
    pthread_join(b, NULL);
    return 0;
}
