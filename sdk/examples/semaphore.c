/* A semaphore says how many items there are, and a mutex guards them. The bug is in line 24: who takes an item waits for one
   while it holds the mutex, which who puts one needs. */
#include <pthread.h>
#include <semaphore.h>

static pthread_mutex_t lock = PTHREAD_MUTEX_INITIALIZER;
static sem_t items;
static int stock;

static void *put(void *unused) {
    pthread_mutex_lock(&lock);
    stock++;
    pthread_mutex_unlock(&lock);
    sem_post(&items);
    return unused;
}

static void *take(void *unused) {
#ifdef MENDED
    sem_wait(&items);
    pthread_mutex_lock(&lock);
#else
    pthread_mutex_lock(&lock);
    sem_wait(&items);
#endif
    stock--;
    pthread_mutex_unlock(&lock);
    return unused;
}

int main(void) {
    pthread_t a, b;
    sem_init(&items, 0, 0);
    pthread_create(&a, NULL, put, NULL);
    pthread_create(&b, NULL, take, NULL);
    pthread_join(a, NULL);
    pthread_join(b, NULL);
    return stock == 0 ? 0 : 1;
}
