/* A store to a freed block whose bytes another thread has got again. The bug is in line 31. */
#include <assert.h>
#include <pthread.h>
#include <stdlib.h>

struct order { int count, price; };
static pthread_mutex_t lock = PTHREAD_MUTEX_INITIALIZER;
static struct order *open_order, *next_order;

static void *closes(void *nothing) {
    pthread_mutex_lock(&lock);
    struct order *mine = open_order;
    open_order = NULL;
    pthread_mutex_unlock(&lock);
    free(mine);
    next_order = malloc(sizeof *next_order);
    next_order->count = next_order->price = 1;
    return nothing;
}

static void *raises(void *nothing) {
    pthread_mutex_lock(&lock);
    struct order *mine = open_order;
#ifdef MENDED
    if (mine)
        mine->price = 8;
#endif
    pthread_mutex_unlock(&lock);
#ifndef MENDED
    if (mine)
        mine->price = 8;
#endif
    return nothing;
}

int main(void) {
    pthread_t a, b;
    open_order = malloc(sizeof *open_order);
    pthread_create(&a, NULL, closes, NULL);
    pthread_create(&b, NULL, raises, NULL);
    pthread_join(a, NULL);
    pthread_join(b, NULL);
    return 0;
}
