/* A listener is called whenever a value is set. The bug is in line 27: it is called while the lock is held, and a listener that
   was put in meanwhile asks for the value, which needs the lock. */
#include <pthread.h>
#include <stddef.h>

static pthread_mutex_t lock = PTHREAD_MUTEX_INITIALIZER;
static void (*volatile listener)(void);
static volatile int value, seen;

static int get(void) {
    pthread_mutex_lock(&lock);
    int now = value;
    pthread_mutex_unlock(&lock);
    return now;
}

static void on_change(void) { seen = get(); }

static void *set(void *unused) {
    pthread_mutex_lock(&lock);
    value = 5;
#ifdef MENDED
    pthread_mutex_unlock(&lock);
    if (listener)
        listener();
#else
    if (listener)
        listener();
    pthread_mutex_unlock(&lock);
#endif
    return unused;
}

static void *listen(void *unused) {
    listener = on_change;
    return unused;
}

int main(void) {
    pthread_t a, b;
    pthread_create(&a, NULL, set, NULL);
    pthread_create(&b, NULL, listen, NULL);
    pthread_join(a, NULL);
    pthread_join(b, NULL);
    return 0;
}
