/* A wait that has timed out is taken for a message. The bug is in line 17. */
#include <assert.h>
#include <errno.h>
#include <pthread.h>
#include <time.h>

static pthread_mutex_t lock = PTHREAD_MUTEX_INITIALIZER;
static pthread_cond_t came = PTHREAD_COND_INITIALIZER;
static int has_message, message;

static void *receiver(void *got) {
    struct timespec until;
    clock_gettime(CLOCK_REALTIME, &until);
    until.tv_nsec += 100000;
    pthread_mutex_lock(&lock);
#ifndef MENDED
    pthread_cond_timedwait(&came, &lock, &until);
    *(int *)got = message;
#else
    while (!has_message)
        pthread_cond_wait(&came, &lock);
    *(int *)got = message;
#endif
    pthread_mutex_unlock(&lock);
    return NULL;
}

int main(void) {
    pthread_t t;
    int got = -1;
    pthread_create(&t, NULL, receiver, &got);
    pthread_mutex_lock(&lock);
    message = 7;
    has_message = 1;
    pthread_cond_signal(&came);
    pthread_mutex_unlock(&lock);
    pthread_join(t, NULL);
    assert(got == 7);
    return 0;
}
