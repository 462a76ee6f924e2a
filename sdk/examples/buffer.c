/* A buffer of a producer and two consumers. The bug is in line 28: who was woken doesn't look again whether there is something,
   and another consumer may have taken it. */
#include <assert.h>
#include <pthread.h>

static pthread_mutex_t lock = PTHREAD_MUTEX_INITIALIZER;
static pthread_cond_t some = PTHREAD_COND_INITIALIZER;
static int count;
#ifdef MENDED
#define UNTIL while
#else
#define UNTIL if
#endif
static void *produce(void *p) {
    (void)p;
    for (int j = 0; j < 2; j++) {
        pthread_mutex_lock(&lock);
        count++;
        pthread_cond_signal(&some);
        pthread_mutex_unlock(&lock);
    }
    return NULL;
}

static void *consume(void *p) {
    (void)p;
    pthread_mutex_lock(&lock);
    UNTIL (count == 0)
        pthread_cond_wait(&some, &lock);
    count--;
    assert(count >= 0);
    pthread_mutex_unlock(&lock);
    return NULL;
}

int main(void) {
    pthread_t t[3];
    pthread_create(&t[0], NULL, consume, NULL);
    pthread_create(&t[1], NULL, consume, NULL);
    pthread_create(&t[2], NULL, produce, NULL);
    for (int j = 0; j < 3; j++)
        pthread_join(t[j], NULL);
    return 0;
}
