/* A ring of numbers. The bug is in line 30: the taker looks whether there is something before it has the lock, and sleeps
   although something came between. */
#include <pthread.h>

static pthread_mutex_t lock = PTHREAD_MUTEX_INITIALIZER;
static pthread_cond_t some = PTHREAD_COND_INITIALIZER;
static volatile int put, ring[4];

static void *putter(void *p) {
    (void)p;
    for (int j = 0; j < 2; j++) {
        pthread_mutex_lock(&lock);
        ring[put % 4] = j + 1;
        put++;
        pthread_cond_signal(&some);
        pthread_mutex_unlock(&lock);
    }
    return NULL;
}

static void *taker(void *p) {
    int taken = 0;
    while (taken < 2) {
#ifdef MENDED
        pthread_mutex_lock(&lock);
        while (put == taken)
            pthread_cond_wait(&some, &lock);
        pthread_mutex_unlock(&lock);
#else
        if (put == taken) {
            pthread_mutex_lock(&lock);
            pthread_cond_wait(&some, &lock);
            pthread_mutex_unlock(&lock);
        }
#endif
        *(int *)p += ring[taken++ % 4];
    }
    return NULL;
}

int main(void) {
    pthread_t a, b;
    int sum = 0;
    pthread_create(&a, NULL, putter, NULL);
    pthread_create(&b, NULL, taker, &sum);
    pthread_join(a, NULL);
    pthread_join(b, NULL);
    return sum == 3 ? 0 : 1;
}
