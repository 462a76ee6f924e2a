/* A stack without locks. The bug is in line 32: the exchange sees that the top is the node that it was, and not that the node
   was taken and put back meanwhile, with another one below it. */
#include <assert.h>
#include <pthread.h>
#include <stdatomic.h>
#include <stddef.h>

struct node { struct node *_Atomic next; atomic_int owner; };
static struct node nodes[3];
#ifdef MENDED
static pthread_mutex_t lock = PTHREAD_MUTEX_INITIALIZER;
#define LOCK pthread_mutex_lock(&lock)
#define UNLOCK pthread_mutex_unlock(&lock)
#else
#define LOCK
#define UNLOCK
#endif
static struct node *_Atomic top;

static void push(struct node *n) {
    LOCK;
    struct node *old = atomic_load(&top);
    do
        atomic_store(&n->next, old);
    while (!atomic_compare_exchange_strong(&top, &old, n));
    UNLOCK;
}

static struct node *pop(void) {
    LOCK;
    struct node *old = atomic_load(&top);
    while (old != NULL && !atomic_compare_exchange_strong(&top, &old, atomic_load(&old->next)))
        ;
    UNLOCK;
    return old;
}

static struct node *take(void) {
    struct node *n = pop();
    if (n)
        assert(atomic_fetch_add(&n->owner, 1) == 0);
    return n;
}

static void give(struct node *n) {
    if (n == NULL)
        return;
    atomic_fetch_sub(&n->owner, 1);
    push(n);
}

static void *one(void *p) {
    (void)p;
    give(take());
    struct node *n = take();
    give(n);
    return NULL;
}

static void *two(void *p) {
    (void)p;
    struct node *n = take(), *m = take();
    give(n);
    struct node *o = take();
    give(m);
    give(o);
    return NULL;
}

int main(void) {
    pthread_t a, b;
    for (int j = 0; j < 3; j++)
        push(&nodes[j]);
    pthread_create(&a, NULL, one, NULL);
    pthread_create(&b, NULL, two, NULL);
    pthread_join(a, NULL);
    pthread_join(b, NULL);
    int count = 0;
    for (struct node *n = top; n; n = n->next)
        assert(++count <= 3);
    assert(count == 3);
    return 0;
}
