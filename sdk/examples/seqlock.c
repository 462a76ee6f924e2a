/* A reader takes a snapshot of two numbers, and a writer counts its changes (a seqlock). The bug is in line 28: the reader sees
   that the count is the same as before, but not that it is odd, which says that a writer is in the middle. */
#include <assert.h>
#include <pthread.h>
#include <stdatomic.h>

static atomic_uint changes;
static atomic_int x, y;

static void *writer(void *unused) {
    atomic_fetch_add(&changes, 1);
    atomic_store(&x, 1);
    atomic_store(&y, 1);
    atomic_fetch_add(&changes, 1);
    return unused;
}

static void *reader(void *unused) {
    int a, b;
    unsigned before;
    do {
        before = atomic_load(&changes);
        a = atomic_load(&x);
        b = atomic_load(&y);
#ifdef MENDED
    } while (before % 2 == 1 || before != atomic_load(&changes));
#else
    } while (before != atomic_load(&changes));
#endif
    assert(a == b);
    return unused;
}

int main(void) {
    pthread_t a, b;
    pthread_create(&a, NULL, writer, NULL);
    pthread_create(&b, NULL, reader, NULL);
    pthread_join(a, NULL);
    pthread_join(b, NULL);
    return 0;
}
