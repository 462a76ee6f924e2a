/* Two values belong together. The bug is in line 16: the lock is given back after the first of them, so a reader may see it
   without the second. */
#include <assert.h>
#include <pthread.h>

static pthread_mutex_t a = PTHREAD_MUTEX_INITIALIZER, b = PTHREAD_MUTEX_INITIALIZER;
static int data1, data2;

static void *writer(void *p) {
    (void)p;
    pthread_mutex_lock(&a);
    data1 = 1;
#ifdef MENDED
    data2 = data1 + 1;
#endif
    pthread_mutex_unlock(&a);
#ifndef MENDED
    pthread_mutex_lock(&b);
    data2 = data1 + 1;
    pthread_mutex_unlock(&b);
#endif
    return NULL;
}

static void *reader(void *p) {
    (void)p;
    (void)b;
    pthread_mutex_lock(&a);
    int t1 = data1;
#ifdef MENDED
    int t2 = data2;
#endif
    pthread_mutex_unlock(&a);
    if (t1 == 0)
        return NULL;
#ifndef MENDED
    pthread_mutex_lock(&b);
    int t2 = data2;
    pthread_mutex_unlock(&b);
#endif
    assert(t2 == t1 + 1);
    return NULL;
}

int main(void) {
    pthread_t w, r;
    pthread_create(&w, NULL, writer, NULL);
    pthread_create(&r, NULL, reader, NULL);
    pthread_join(w, NULL);
    pthread_join(r, NULL);
    return 0;
}
