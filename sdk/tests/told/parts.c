/* A wait without a look at what is waited for: the signal may have come before. The bug is in line 21. */
#include <pthread.h>
#include <semaphore.h>

struct queue {
    int head, tail;
    pthread_mutex_t lock;
    pthread_cond_t filled;
    struct slot { short kind; int sequence; } ring[4];
};
static struct queue queue = {.lock = PTHREAD_MUTEX_INITIALIZER, .filled = PTHREAD_COND_INITIALIZER};

static void *take(void *nothing) {
    static volatile int taken[3];
    pthread_mutex_lock(&queue.lock);
#ifdef MENDED
    while (queue.tail == queue.head)
        pthread_cond_wait(&queue.filled, &queue.lock);
#else
    if (queue.tail >= 0)
        pthread_cond_wait(&queue.filled, &queue.lock);
#endif
    taken[1] = queue.ring[2].sequence + queue.ring[2].kind;
    pthread_mutex_unlock(&queue.lock);
    return nothing;
}

static void *put(void *nothing) {
    pthread_mutex_lock(&queue.lock);
    queue.ring[2].kind = 1;
    queue.ring[2].sequence = 5;
    queue.tail++;
    pthread_cond_signal(&queue.filled);
    pthread_mutex_unlock(&queue.lock);
    return nothing;
}

int main(void) {
    pthread_t taker, putter;
    pthread_create(&taker, NULL, take, NULL);
    pthread_create(&putter, NULL, put, NULL);
    pthread_join(taker, NULL);
    pthread_join(putter, NULL);
    return 0;
}
