/* The function runs once, and has ended before anybody goes on. */
#include <assert.h>
#include <pthread.h>

static pthread_once_t once = PTHREAD_ONCE_INIT;
static int begun, done;

static void start(void) {
    begun++;
    done++;
}

static void *work(void *argument) {
    pthread_once(&once, start);
    assert(begun == 1 && done == 1);
    return argument;
}

int main(void) {
    pthread_t threads[THREADS];
    for (int j = 0; j < THREADS; j++)
        pthread_create(&threads[j], 0, work, 0);
    for (int j = 0; j < THREADS; j++)
        pthread_join(threads[j], 0);
    return 0;
}
