/* Setters store two words, and a checker looks whether they go together. The bug is in line 37: it may look between the two
   stores. */
#include <assert.h>
#include <pthread.h>

#ifndef SETTERS
#define SETTERS 2
#endif
static pthread_mutex_t lock = PTHREAD_MUTEX_INITIALIZER;
static volatile int a, b;

static void enter(void) {
#ifdef MENDED
    pthread_mutex_lock(&lock);
#endif
}

static void leave(void) {
#ifdef MENDED
    pthread_mutex_unlock(&lock);
#endif
}

static void *set(void *p) {
    (void)p;
    enter();
    a = 1;
    b = -1;
    leave();
    return NULL;
}

static void *check(void *p) {
    (void)p;
    (void)lock;
    enter();
    int x = a, y = b;
    leave();
    assert((x == 0 && y == 0) || (x == 1 && y == -1));
    return NULL;
}

int main(void) {
    pthread_t t[SETTERS + 1];
    for (int j = 0; j < SETTERS; j++)
        pthread_create(&t[j], NULL, set, NULL);
    pthread_create(&t[SETTERS], NULL, check, NULL);
    for (int j = 0; j <= SETTERS; j++)
        pthread_join(t[j], NULL);
    return 0;
}
