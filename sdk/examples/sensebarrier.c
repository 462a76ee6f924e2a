/* A barrier whose sense turns over with each round. The bug is in line 17: the sense is turned before the count is set back, so
   a thread that is let go may come to the next round and count itself before that. */
#include <pthread.h>
#include <stdatomic.h>

enum { THREADS = 2 };

static atomic_int count = THREADS, sense;

static void meet(int *mine) {
    *mine = !*mine;
    if (atomic_fetch_sub(&count, 1) == 1) {
#ifdef MENDED
        atomic_store(&count, THREADS);
        atomic_store(&sense, *mine);
#else
        atomic_store(&sense, *mine);
        atomic_store(&count, THREADS);
#endif
    } else {
        while (atomic_load(&sense) != *mine)
            ;
    }
}

static void *work(void *unused) {
    int mine = 0;
    meet(&mine);
    meet(&mine);
    return unused;
}

int main(void) {
    pthread_t threads[THREADS];
    for (int j = 0; j < THREADS; j++)
        pthread_create(&threads[j], NULL, work, NULL);
    for (int j = 0; j < THREADS; j++)
        pthread_join(threads[j], NULL);
    return 0;
}
