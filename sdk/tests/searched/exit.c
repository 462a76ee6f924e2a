/* exit in a thread ends the program with its code, although main waits, for a signal or with HOLDING for a lock that the thread holds. */
#include <assert.h>
#include <pthread.h>
#include <stdlib.h>

static pthread_mutex_t mutex = PTHREAD_MUTEX_INITIALIZER;
static pthread_cond_t cond = PTHREAD_COND_INITIALIZER;

static void *work(void *argument) {
#ifdef HOLDING
    pthread_mutex_lock(&mutex);
#endif
    exit((int)(long)argument);
}

int main(void) {
    pthread_t one, two;
    pthread_create(&one, 0, work, 0);
    pthread_create(&two, 0, work, 0);
    pthread_mutex_lock(&mutex);
    for (;;)
        pthread_cond_wait(&cond, &mutex);
}
