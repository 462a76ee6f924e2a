/* Pairs are taken from a store of items. The bug is in line 24: it waits until there is an item, and not until there are two. */
#include <assert.h>
#include <pthread.h>

static pthread_mutex_t lock = PTHREAD_MUTEX_INITIALIZER;
static pthread_cond_t some = PTHREAD_COND_INITIALIZER;
static int items;

static void *put_two(void *unused) {
    for (int j = 0; j < 2; j++) {
        pthread_mutex_lock(&lock);
        items++;
        pthread_cond_signal(&some);
        pthread_mutex_unlock(&lock);
    }
    return unused;
}

static void *take_pair(void *unused) {
    pthread_mutex_lock(&lock);
#ifdef MENDED
    while (items < 2)
#else
    while (items == 0)
#endif
        pthread_cond_wait(&some, &lock);
    items -= 2;
    assert(items >= 0);
    pthread_mutex_unlock(&lock);
    return unused;
}

int main(void) {
    pthread_t a, b;
    pthread_create(&a, NULL, put_two, NULL);
    pthread_create(&b, NULL, take_pair, NULL);
    pthread_join(a, NULL);
    pthread_join(b, NULL);
    return 0;
}
