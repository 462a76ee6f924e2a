/* Nothing is stale, and the failure needs one order: the second one's work is done before the first one's. The bug is in line 25. Many
   rows come before, so that the order that is told is cut. */
#include <assert.h>
#include <pthread.h>
#include <stdlib.h>

static pthread_mutex_t lock = PTHREAD_MUTEX_INITIALIZER;
static int counts[40], stage;
static int *shared;

static void *first(void *nothing) {
    for (int j = 0; j < 40; j++)
        counts[j] = j;
    pthread_mutex_lock(&lock);
    stage = 1;
    free(shared);
    shared = NULL;
    pthread_mutex_unlock(&lock);
    return nothing;
}

static void *second(void *nothing) {
    pthread_mutex_lock(&lock);
#ifndef MENDED
    assert(stage == 0);
#endif
    if (shared)
        *shared = 3;
    pthread_mutex_unlock(&lock);
    return nothing;
}

int main(void) {
    pthread_t a, b;
    shared = malloc(sizeof *shared);
    pthread_create(&a, NULL, first, NULL);
    pthread_create(&b, NULL, second, NULL);
    pthread_join(a, NULL);
    pthread_join(b, NULL);
    return 0;
}
