/* A pointer into a vector that another thread lets grow: realloc moves it. The bug is in line 21. */
#include <assert.h>
#include <pthread.h>
#include <stdlib.h>
static pthread_mutex_t lock = PTHREAD_MUTEX_INITIALIZER;
static struct vector { int *items, count, room; } vector;
static int *append(int value) {
    pthread_mutex_lock(&lock);
    if (vector.count == vector.room)
        vector.items = realloc(vector.items, (vector.room *= 4) * sizeof(int));
    int *at = &vector.items[vector.count++];
    *at = value;
    pthread_mutex_unlock(&lock);
    return at;
}
static void *adds(void *p) {
#ifdef MENDED
    append(2 * *(int *)p);
#else
    int *mine = append(*(int *)p);
    *mine *= 2;
#endif
    return NULL;
}
int main(void) {
    pthread_t a, b; int one = 1, two = 2;
    vector.room = 1; vector.items = malloc(sizeof(int));
    pthread_create(&a, NULL, adds, &one);
    pthread_create(&b, NULL, adds, &two);
    pthread_join(a, NULL); pthread_join(b, NULL);
    assert(vector.items[0] + vector.items[1] == 6);
    free(vector.items);
    return 0;
}
