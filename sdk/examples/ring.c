/* A ring between one putter and one taker, without a lock. The bug is in line 20: the index is moved on before the number is in
   its place, so the taker may take what was there before. */
#include <assert.h>
#include <pthread.h>
#include <stdatomic.h>

enum { ROOM = 2, NUMBERS = 3 };

static atomic_int slots[ROOM];
static atomic_uint put_at, taken_at;

static void put(int number) {
    unsigned at = atomic_load(&put_at);
    while (at - atomic_load(&taken_at) == ROOM)
        ;
#ifdef MENDED
    atomic_store(&slots[at % ROOM], number);
    atomic_store(&put_at, at + 1);
#else
    atomic_store(&put_at, at + 1);
    atomic_store(&slots[at % ROOM], number);
#endif
}

static int take(void) {
    unsigned at = atomic_load(&taken_at);
    while (atomic_load(&put_at) == at)
        ;
    int number = atomic_load(&slots[at % ROOM]);
    atomic_store(&taken_at, at + 1);
    return number;
}

static void *putter(void *unused) {
    for (int j = 1; j <= NUMBERS; j++)
        put(j);
    return unused;
}

static void *taker(void *unused) {
    for (int j = 1; j <= NUMBERS; j++)
        assert(take() == j);
    return unused;
}

int main(void) {
    pthread_t a, b;
    pthread_create(&a, NULL, putter, NULL);
    pthread_create(&b, NULL, taker, NULL);
    pthread_join(a, NULL);
    pthread_join(b, NULL);
    return 0;
}
