/* Values of threads by keys. */
#include "block.h"
#include "word.h"

#include <errno.h>
#include <stddef.h>

static void (*destructors[PTHREAD_KEYS_MAX])(void *);
static unsigned key_count;

int pthread_key_create(pthread_key_t *key, void (*destructor)(void *)) {
    unsigned k = ADD(key_count, 1);
    if (k >= PTHREAD_KEYS_MAX)
        return EAGAIN;
    destructors[k] = destructor;
    *key = k;
    return 0;
}

int pthread_key_delete(pthread_key_t key) {
    if (key >= PTHREAD_KEYS_MAX)
        return EINVAL;
    destructors[key] = NULL;
    return 0;
}

int pthread_setspecific(pthread_key_t key, const void *value) {
    if (key >= PTHREAD_KEYS_MAX)
        return EINVAL;
    me()->specific[key] = value;
    return 0;
}

void *pthread_getspecific(pthread_key_t key) { return key < PTHREAD_KEYS_MAX ? (void *)me()->specific[key] : NULL; }

static int destroy_once(struct thread *t) {
    int found = 0;
    for (unsigned k = 0; k < PTHREAD_KEYS_MAX; k++) {
        void *value = (void *)t->specific[k];
        if (value == NULL || destructors[k] == NULL)
            continue;
        found = 1;
        t->specific[k] = NULL;
        destructors[k](value);
    }
    return found;
}

/* A destructor may set values again. */
void __destroy_specifics(struct thread *t) {
    for (int j = 0; j < PTHREAD_DESTRUCTOR_ITERATIONS && destroy_once(t); j++)
        ;
}
