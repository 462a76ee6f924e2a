/* Settings are filled in by whoever needs them first. The bug is in line 14: it says that they are there before they are. */
#include <assert.h>
#include <pthread.h>

static pthread_mutex_t lock = PTHREAD_MUTEX_INITIALIZER;
static volatile int is_there, width, height;

static void *work(void *p) {
    (void)p;
    if (!is_there) {
        pthread_mutex_lock(&lock);
        if (!is_there) {
#ifndef MENDED
            is_there = 1;
#endif
            width = 4;
            height = 3;
#ifdef MENDED
            is_there = 1;
#endif
        }
        pthread_mutex_unlock(&lock);
    }
    assert(width * height == 12);
    return NULL;
}

int main(void) {
    pthread_t a, b;
    pthread_create(&a, NULL, work, NULL);
    pthread_create(&b, NULL, work, NULL);
    pthread_join(a, NULL);
    pthread_join(b, NULL);
    return 0;
}
