/* A worker does what is posted until it is told to stop. The bug is in line 27: it looks whether it is to stop before it looks
   whether there is work, so work that was posted before the stop may be left. */
#include <assert.h>
#include <pthread.h>

static pthread_mutex_t lock = PTHREAD_MUTEX_INITIALIZER;
static volatile int is_stopped;
static int posted, done;

static int do_posted(void) {
    pthread_mutex_lock(&lock);
    int left = posted - done;
    if (left > 0)
        done++;
    pthread_mutex_unlock(&lock);
    return left > 0;
}

static void *work(void *unused) {
#ifdef MENDED
    for (;;) {
        int is_last = is_stopped;
        if (!do_posted() && is_last)
            break;
    }
#else
    while (!is_stopped)
        do_posted();
#endif
    return unused;
}

static void *post(void *unused) {
    pthread_mutex_lock(&lock);
    posted++;
    pthread_mutex_unlock(&lock);
    is_stopped = 1;
    return unused;
}

int main(void) {
    pthread_t a, b;
    pthread_create(&a, NULL, work, NULL);
    pthread_create(&b, NULL, post, NULL);
    pthread_join(a, NULL);
    pthread_join(b, NULL);
    assert(done == posted);
    return 0;
}
