/* Whoever joins sees the result and all that was done, also with places that serve several threads one after another. */
#include <assert.h>
#include <pthread.h>

static int done[PTHREADS];

static void *work(void *argument) {
    static _Thread_local int mine;
    assert(mine == 0);
    mine = 1;
    *(int *)argument = 1;
    return argument;
}

int main(void) {
    for (int j = 0; j < PTHREADS; j += 2) {
        pthread_t one, two;
        void *result;
        assert(pthread_create(&one, 0, work, &done[j]) == 0);
        assert(pthread_create(&two, 0, work, &done[j + 1]) == 0);
        assert(pthread_join(two, &result) == 0 && result == &done[j + 1] && done[j + 1]);
        assert(pthread_join(one, &result) == 0 && result == &done[j] && done[j]);
    }
    return 0;
}
