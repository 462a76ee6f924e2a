/* A barrier of one's own is used twice. The bug is in line 22: who waits goes on when the count is 0 again, but by the time it
   looks, the other thread may have come to the next round and have counted itself. */
#include <pthread.h>

enum { THREADS = 2 };

static pthread_mutex_t lock = PTHREAD_MUTEX_INITIALIZER;
static pthread_cond_t all_there = PTHREAD_COND_INITIALIZER;
static int count, rounds;

static void meet(void) {
    pthread_mutex_lock(&lock);
    int mine = rounds;
    if (++count == THREADS) {
        count = 0;
        rounds++;
        pthread_cond_broadcast(&all_there);
    } else {
#ifdef MENDED
        while (rounds == mine)
#else
        while (count != 0)
#endif
            pthread_cond_wait(&all_there, &lock);
    }
    (void)mine;
    pthread_mutex_unlock(&lock);
}

static void *work(void *unused) {
    meet();
    meet();
    return unused;
}

int main(void) {
    pthread_t threads[THREADS];
    for (int j = 0; j < THREADS; j++)
        pthread_create(&threads[j], NULL, work, NULL);
    for (int j = 0; j < THREADS; j++)
        pthread_join(threads[j], NULL);
    return 0;
}
