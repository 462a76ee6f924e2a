/* Whoever needs the table first makes it. The bug is in line 15: two threads may both find that there is none. */
#include <assert.h>
#include <pthread.h>
#include <stdlib.h>

struct table { int size, users; };
static struct table *table;
static int made;
static pthread_mutex_t lock = PTHREAD_MUTEX_INITIALIZER;

static struct table *get(void) {
#ifdef MENDED
    pthread_mutex_lock(&lock);
#endif
    if (table == NULL) {
        struct table *t = malloc(sizeof *t);
        t->size = 8;
        t->users = 0;
        __atomic_fetch_add(&made, 1, __ATOMIC_SEQ_CST);
        table = t;
    }
    struct table *r = table;
#ifdef MENDED
    pthread_mutex_unlock(&lock);
#endif
    return r;
}

static void *work(void *p) {
    (void)p;
    __atomic_fetch_add(&get()->users, 1, __ATOMIC_SEQ_CST);
    return NULL;
}

int main(void) {
    pthread_t a, b;
    (void)lock;
    pthread_create(&a, NULL, work, NULL);
    pthread_create(&b, NULL, work, NULL);
    pthread_join(a, NULL);
    pthread_join(b, NULL);
    assert(made == 1 && table->users == 2);
    return 0;
}
