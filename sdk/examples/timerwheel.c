/* A wheel of timers: a thread turns it and fires what is due, another one cancels a timer and frees it. The bug is in line 29:
   the timer is taken out under the lock and fired after it, when it may have been cancelled and freed. */
#include <assert.h>
#include <pthread.h>
#include <stdlib.h>

enum { SLOTS = 2 };

struct timer { int is_set, fired; };

static pthread_mutex_t lock = PTHREAD_MUTEX_INITIALIZER;
static struct timer *wheel[SLOTS];

static void fire(struct timer *t) {
    assert(t->is_set == 1);
    t->fired++;
}

static void *turn(void *unused) {
    for (int slot = 0; slot < SLOTS; slot++) {
        pthread_mutex_lock(&lock);
        struct timer *t = wheel[slot];
        wheel[slot] = NULL;
#ifdef MENDED
        if (t)
            fire(t);
        pthread_mutex_unlock(&lock);
#else
        pthread_mutex_unlock(&lock);
        if (t)
            fire(t);
#endif
    }
    return unused;
}

static void *cancel(void *timer) {
    struct timer *t = timer;
    pthread_mutex_lock(&lock);
    if (wheel[1] == t)
        wheel[1] = NULL;
    t->is_set = 0;
    pthread_mutex_unlock(&lock);
    free(t);
    return NULL;
}

int main(void) {
    pthread_t a, b;
    struct timer *t = malloc(sizeof *t);
    *t = (struct timer){.is_set = 1};
    wheel[1] = t;
    pthread_create(&a, NULL, turn, NULL);
    pthread_create(&b, NULL, cancel, t);
    pthread_join(a, NULL);
    pthread_join(b, NULL);
    return 0;
}
