/* An object is made when it is first asked for, and its address is looked at without the lock first. The bug is in line 27: the
   address is stored before the object is filled in. */
#include <assert.h>
#include <pthread.h>
#include <stdatomic.h>
#include <stdlib.h>

struct config { atomic_int width, height; };

static pthread_mutex_t lock = PTHREAD_MUTEX_INITIALIZER;
static struct config *_Atomic config;

static void fill(struct config *c) {
    atomic_store(&c->width, 4);
    atomic_store(&c->height, 3);
}

static struct config *get(void) {
    if (atomic_load(&config) == NULL) {
        pthread_mutex_lock(&lock);
        if (atomic_load(&config) == NULL) {
            struct config *c = calloc(1, sizeof *c);
#ifdef MENDED
            fill(c);
            atomic_store(&config, c);
#else
            atomic_store(&config, c);
            fill(c);
#endif
        }
        pthread_mutex_unlock(&lock);
    }
    return atomic_load(&config);
}

static void *work(void *unused) {
    struct config *c = get();
    assert(atomic_load(&c->width) * atomic_load(&c->height) == 12);
    return unused;
}

int main(void) {
    pthread_t a, b;
    pthread_create(&a, NULL, work, NULL);
    pthread_create(&b, NULL, work, NULL);
    pthread_join(a, NULL);
    pthread_join(b, NULL);
    return 0;
}
