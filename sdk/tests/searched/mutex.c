/* A mutex lets one in at a time, and what is done inside is seen by the next; THREADS of them, ROUNDS times. */
#include <assert.h>
#include <pthread.h>

static pthread_mutex_t mutex = PTHREAD_MUTEX_INITIALIZER;
static int inside, count;

static void *work(void *argument) {
    for (int j = 0; j < ROUNDS; j++) {
        pthread_mutex_lock(&mutex);
        assert(inside == 0);
        inside = 1;
        count++;
        inside = 0;
        pthread_mutex_unlock(&mutex);
    }
    return argument;
}

int main(void) {
    pthread_t threads[THREADS];
    for (int j = 0; j < THREADS; j++)
        pthread_create(&threads[j], 0, work, 0);
    for (int j = 0; j < THREADS; j++)
        pthread_join(threads[j], 0);
    assert(count == THREADS * ROUNDS);
    return 0;
}
