/* Threads copy a number on, each from the one before it (after Inspect's token_ring). The bug is in line 19: a thread doesn't
   wait for its turn, and copies a number that isn't there yet. */
#include <assert.h>
#include <pthread.h>

enum { N = 3 };
static volatile int x[N + 1] = {1};
static pthread_mutex_t lock = PTHREAD_MUTEX_INITIALIZER;
static pthread_cond_t turn_changed = PTHREAD_COND_INITIALIZER;
static int turn;

static void *pass(void *p) {
    int j = (int)(long)p;
#ifdef MENDED
    pthread_mutex_lock(&lock);
    while (turn != j)
        pthread_cond_wait(&turn_changed, &lock);
#endif
    x[j + 1] = x[j] + 1;
#ifdef MENDED
    turn++;
    pthread_cond_broadcast(&turn_changed);
    pthread_mutex_unlock(&lock);
#endif
    return NULL;
}

int main(void) {
    pthread_t t[N];
    (void)lock, (void)turn_changed, (void)turn;
    for (long j = 0; j < N; j++)
        pthread_create(&t[j], NULL, pass, (void *)j);
    for (int j = 0; j < N; j++)
        pthread_join(t[j], NULL);
    assert(x[N] == N + 1);
    return 0;
}
