/* A reader says by a hazard pointer which node it uses, and who replaces the node doesn't free one that is in use. The bug is
   in line 23: the reader doesn't look whether the node is still the current one after it has said that it uses it. */
#include <assert.h>
#include <pthread.h>
#include <stdatomic.h>
#include <stdlib.h>

struct node { int value; };

static struct node *_Atomic current, *_Atomic hazard;

static struct node *protect(void) {
    struct node *n = atomic_load(&current);
#ifdef MENDED
    for (;;) {
        atomic_store(&hazard, n);
        struct node *again = atomic_load(&current);
        if (again == n)
            return n;
        n = again;
    }
#else
    atomic_store(&hazard, n);
    return n;
#endif
}

static void *reader(void *unused) {
    struct node *n = protect();
    assert(n->value == 7);
    atomic_store(&hazard, NULL);
    return unused;
}

static void *replace(void *unused) {
    struct node *fresh = malloc(sizeof *fresh);
    fresh->value = 7;
    struct node *old = atomic_exchange(&current, fresh);
    if (atomic_load(&hazard) != old) {
        old->value = 0;
        free(old);
    }
    return unused;
}

int main(void) {
    pthread_t a, b;
    struct node *n = malloc(sizeof *n);
    n->value = 7;
    current = n;
    pthread_create(&a, NULL, reader, NULL);
    pthread_create(&b, NULL, replace, NULL);
    pthread_join(a, NULL);
    pthread_join(b, NULL);
    return 0;
}
