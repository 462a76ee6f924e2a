/* A clock of two words, seconds and ticks, is read while it is set. The bug is in line 18: the seconds are read first and the
   ticks later, and the clock may have gone over to the next second between. */
#include <assert.h>
#include <pthread.h>

enum { TICKS = 10 };

static pthread_mutex_t lock = PTHREAD_MUTEX_INITIALIZER;
static volatile int seconds = 1, ticks = TICKS - 1;

static int now(void) {
#ifdef MENDED
    pthread_mutex_lock(&lock);
    int n = seconds * TICKS + ticks;
    pthread_mutex_unlock(&lock);
    return n;
#else
    return seconds * TICKS + ticks;
#endif
}

static void *tick(void *unused) {
    pthread_mutex_lock(&lock);
    ticks = 0;
    seconds++;
    pthread_mutex_unlock(&lock);
    return unused;
}

static void *reader(void *unused) {
    int before = now();
    assert(now() >= before);
    return unused;
}

int main(void) {
    pthread_t a, b;
    pthread_create(&a, NULL, tick, NULL);
    pthread_create(&b, NULL, reader, NULL);
    pthread_join(a, NULL);
    pthread_join(b, NULL);
    return 0;
}
