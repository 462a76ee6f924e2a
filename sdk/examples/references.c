/* An object is freed with its last reference, and others take references by a table. The bug is in line 27: the count is raised
   again after it has come to 0, when the object is about to be freed. */
#include <assert.h>
#include <pthread.h>
#include <stdatomic.h>
#include <stdlib.h>

struct object { atomic_int references, value; };

static struct object *object;

static void drop(struct object *o) {
    if (atomic_fetch_sub(&o->references, 1) == 1)
        atomic_store(&o->value, 0); /* and it would be freed */
}

static struct object *grab(struct object *o) {
#ifdef MENDED
    int count = atomic_load(&o->references);
    while (count > 0)
        if (atomic_compare_exchange_strong(&o->references, &count, count + 1))
            return o;
    return NULL;
#else
    if (atomic_load(&o->references) == 0)
        return NULL;
    atomic_fetch_add(&o->references, 1);
    return o;
#endif
}

static void *user(void *unused) {
    struct object *o = grab(object);
    if (o) {
        assert(atomic_load(&o->value) == 7);
        drop(o);
    }
    return unused;
}

static void *owner(void *unused) {
    drop(object);
    return unused;
}

int main(void) {
    pthread_t a, b;
    object = malloc(sizeof *object);
    object->references = 1;
    object->value = 7;
    pthread_create(&a, NULL, user, NULL);
    pthread_create(&b, NULL, owner, NULL);
    pthread_join(a, NULL);
    pthread_join(b, NULL);
    free(object);
    return 0;
}
