/* A signal wakes one, not two, and is never lost on those who wait: each of THREADS waits once, and gets a signal of its own. */
#include <assert.h>
#include <pthread.h>
#include <semaphore.h>

static pthread_mutex_t mutex = PTHREAD_MUTEX_INITIALIZER;
static pthread_cond_t cond = PTHREAD_COND_INITIALIZER;
static sem_t waits;
static int sent, woken;

static void *work(void *argument) {
    pthread_mutex_lock(&mutex);
    sem_post(&waits);
    pthread_cond_wait(&cond, &mutex);
    woken++;
    assert(woken <= sent);
    pthread_mutex_unlock(&mutex);
    return argument;
}

int main(void) {
    pthread_t threads[THREADS];
    sem_init(&waits, 0, 0);
    for (int j = 0; j < THREADS; j++)
        pthread_create(&threads[j], 0, work, 0);
    for (int j = 0; j < THREADS; j++)
        sem_wait(&waits);
    for (int j = 0; j < THREADS; j++) {
        pthread_mutex_lock(&mutex);
        sent++;
        pthread_cond_signal(&cond);
        pthread_mutex_unlock(&mutex);
    }
    for (int j = 0; j < THREADS; j++)
        pthread_join(threads[j], 0);
    assert(woken == THREADS);
    return 0;
}
