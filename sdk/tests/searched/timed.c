/* A wait that is too late takes no signal with it. One thread waits until a time and another without end; whoever wakes the other has
   either sent a signal, or got the only one and hands it on. */
#include <assert.h>
#include <errno.h>
#include <pthread.h>
#include <time.h>

static pthread_mutex_t mutex = PTHREAD_MUTEX_INITIALIZER;
static pthread_cond_t cond = PTHREAD_COND_INITIALIZER;
static int ready;

static void *until(void *argument) {
    struct timespec time;
    clock_gettime(CLOCK_REALTIME, &time);
    time.tv_nsec += 100000;
    pthread_mutex_lock(&mutex);
    int error = pthread_cond_timedwait(&cond, &mutex, &time);
    assert(error == 0 || error == ETIMEDOUT);
    if (error == 0)
        pthread_cond_signal(&cond);
    pthread_mutex_unlock(&mutex);
    return argument;
}

static void *endless(void *argument) {
    pthread_mutex_lock(&mutex);
    while (!ready)
        pthread_cond_wait(&cond, &mutex);
    pthread_mutex_unlock(&mutex);
    return argument;
}

int main(void) {
    pthread_t one, two;
    pthread_create(&two, 0, endless, 0);
    pthread_create(&one, 0, until, 0);
#ifdef AFTER
    pthread_join(one, 0);
#endif
    pthread_mutex_lock(&mutex);
    ready = 1;
    pthread_cond_signal(&cond);
    pthread_mutex_unlock(&mutex);
#ifndef AFTER
    pthread_join(one, 0);
#endif
    pthread_join(two, 0);
    return 0;
}
