/* Nobody passes a barrier before all have come, in two rounds, and one of them is told that it is the last. */
#include <assert.h>
#include <pthread.h>

static pthread_barrier_t barrier;
static int came[2], last[2];

static void round_of(int r) {
    __atomic_fetch_add(&came[r], 1, __ATOMIC_SEQ_CST);
    if (pthread_barrier_wait(&barrier) == PTHREAD_BARRIER_SERIAL_THREAD)
        __atomic_fetch_add(&last[r], 1, __ATOMIC_SEQ_CST);
    assert(__atomic_load_n(&came[r], __ATOMIC_SEQ_CST) == THREADS);
}

static void *work(void *argument) {
    for (int r = 0; r < ROUNDS; r++)
        round_of(r);
    return argument;
}

int main(void) {
    pthread_t threads[THREADS];
    pthread_barrier_init(&barrier, 0, THREADS);
    for (int j = 1; j < THREADS; j++)
        pthread_create(&threads[j], 0, work, 0);
    work(0);
    for (int j = 1; j < THREADS; j++)
        pthread_join(threads[j], 0);
    for (int r = 0; r < ROUNDS; r++)
        assert(last[r] == 1);
    return 0;
}
