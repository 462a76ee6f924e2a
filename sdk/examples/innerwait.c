/* A queue with a lock of its own is used by a service with another lock. The bug is in line 37: the service's lock is taken
   before the queue is waited on, which gives back the queue's lock alone, so nobody can put anything. */
#include <pthread.h>

static pthread_mutex_t service = PTHREAD_MUTEX_INITIALIZER, queue = PTHREAD_MUTEX_INITIALIZER;
static pthread_cond_t some = PTHREAD_COND_INITIALIZER;
static int length;

static void put(void) {
    pthread_mutex_lock(&queue);
    length++;
    pthread_cond_signal(&some);
    pthread_mutex_unlock(&queue);
}

static void get(void) {
    pthread_mutex_lock(&queue);
    while (length == 0)
        pthread_cond_wait(&some, &queue);
    length--;
    pthread_mutex_unlock(&queue);
}

static void *producer(void *unused) {
    pthread_mutex_lock(&service);
    put();
    pthread_mutex_unlock(&service);
    return unused;
}

static void *consumer(void *unused) {
#ifdef MENDED
    get();
    pthread_mutex_lock(&service);
    pthread_mutex_unlock(&service);
#else
    pthread_mutex_lock(&service);
    get();
    pthread_mutex_unlock(&service);
#endif
    return unused;
}

int main(void) {
    pthread_t a, b;
    pthread_create(&a, NULL, producer, NULL);
    pthread_create(&b, NULL, consumer, NULL);
    pthread_join(a, NULL);
    pthread_join(b, NULL);
    return 0;
}
