/* A list is walked by a function that calls itself, while another thread makes a ring of it. The bug is in line 20: the element
   may be in the list by now, because it was looked for without the lock. Then the walk never ends, and runs past its stack. */
#include <pthread.h>
#include <stddef.h>

struct element { struct element *volatile next; };

static pthread_mutex_t lock = PTHREAD_MUTEX_INITIALIZER;
static struct element elements[2], *volatile first;

static int is_in_list(struct element *e) {
    for (struct element *at = first; at; at = at->next)
        if (at == e)
            return 1;
    return 0;
}

static void insert(struct element *e) {
    pthread_mutex_lock(&lock);
    e->next = first;
    first = e;
    pthread_mutex_unlock(&lock);
}

static void *add(void *element) {
#ifdef MENDED
    static pthread_mutex_t adding = PTHREAD_MUTEX_INITIALIZER;
    pthread_mutex_lock(&adding);
    if (!is_in_list(element))
        insert(element);
    pthread_mutex_unlock(&adding);
#else
    if (!is_in_list(element))
        insert(element);
#endif
    return NULL;
}

static int length(const struct element *e) {
    volatile char line[200] = {0};
    return e ? 1 + length(e->next) + line[0] : 0;
}

int main(void) {
    pthread_t a, b;
    pthread_create(&a, NULL, add, &elements[0]);
    pthread_create(&b, NULL, add, &elements[0]);
    pthread_join(a, NULL);
    pthread_join(b, NULL);
    return length(first) == 1 ? 0 : 1;
}
