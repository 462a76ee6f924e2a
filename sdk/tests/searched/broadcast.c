/* A broadcast wakes all who wait, whenever others come: each of THREADS waits for a word of its own, and all share a condition variable. */
#include <assert.h>
#include <pthread.h>

static pthread_mutex_t mutex = PTHREAD_MUTEX_INITIALIZER;
static pthread_cond_t cond = PTHREAD_COND_INITIALIZER;
static int ready[THREADS], seen;

static void *work(void *argument) {
    pthread_mutex_lock(&mutex);
    while (!*(int *)argument)
        pthread_cond_wait(&cond, &mutex);
    seen++;
    pthread_mutex_unlock(&mutex);
    return argument;
}

static void make_ready(int j) {
    pthread_mutex_lock(&mutex);
    ready[j] = 1;
    pthread_mutex_unlock(&mutex);
    pthread_cond_broadcast(&cond);
}

int main(void) {
    pthread_t threads[THREADS];
    for (int j = 0; j < THREADS; j++)
        pthread_create(&threads[j], 0, work, &ready[j]);
    for (int j = 0; j < THREADS; j++)
        make_ready(j);
    for (int j = 0; j < THREADS; j++)
        pthread_join(threads[j], 0);
    assert(seen == THREADS);
    return 0;
}
