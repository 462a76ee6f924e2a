/* Blocks that are given out at the same time don't overlap, and one thread may free what another got. With a small heap the common part
   is used. */
#include <assert.h>
#include <pthread.h>
#include <stdlib.h>

static int *handed;

static int *marked(int mark) {
    int *p = malloc(sizeof *p);
    *p = mark;
    return p;
}

static void *work(void *argument) {
    int mark = (int)(long)argument, *a = marked(mark);
#ifdef HANDED
    free(__atomic_exchange_n(&handed, a, __ATOMIC_SEQ_CST));
#endif
    int *b = marked(mark);
    assert(*b == mark);
    free(b);
    return argument;
}

int main(void) {
    pthread_t threads[THREADS];
    for (long j = 0; j < THREADS; j++)
        pthread_create(&threads[j], 0, work, (void *)(j + 1));
    for (int j = 0; j < THREADS; j++)
        pthread_join(threads[j], 0);
    free(handed);
    return 0;
}
