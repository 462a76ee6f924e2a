/* The last worker of a pool says so, and the pool is freed. The bug is in line 19: the worker gives the lock back after the
   owner may have seen the count and freed the pool, and with it the lock. */
#include <assert.h>
#include <pthread.h>
#include <stdlib.h>

struct pool { pthread_mutex_t lock; pthread_cond_t ended; volatile int running; };

static void *work(void *argument) {
    struct pool *pool = argument;
#ifdef MENDED
    pthread_mutex_lock(&pool->lock);
    if (--pool->running == 0)
        pthread_cond_signal(&pool->ended);
    pthread_mutex_unlock(&pool->lock);
#else
    pthread_mutex_lock(&pool->lock);
    pool->running--;
    assert(pthread_mutex_unlock(&pool->lock) == 0);
#endif
    return NULL;
}

static void wait_for_workers(struct pool *pool) {
#ifdef MENDED
    pthread_mutex_lock(&pool->lock);
    while (pool->running > 0)
        pthread_cond_wait(&pool->ended, &pool->lock);
    pthread_mutex_unlock(&pool->lock);
#else
    while (pool->running > 0)
        ;
#endif
}

int main(void) {
    struct pool *pool = malloc(sizeof *pool);
    pthread_t workers[2];
    pthread_mutex_init(&pool->lock, NULL);
    pthread_cond_init(&pool->ended, NULL);
    pool->running = 2;
    for (int j = 0; j < 2; j++)
        pthread_create(&workers[j], NULL, work, pool);
    wait_for_workers(pool);
#ifdef MENDED
    for (int j = 0; j < 2; j++)
        pthread_join(workers[j], NULL);
    free(pool);
#else
    free(pool);
    for (int j = 0; j < 2; j++)
        pthread_join(workers[j], NULL);
#endif
    return 0;
}
