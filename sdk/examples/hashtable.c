/* A hash table with a lock for each of its lists; a key is moved from one list to another. The bug is in line 34: the key is in
   neither list after the first lock is given back, and who looks for it then finds nothing. */
#include <assert.h>
#include <pthread.h>
#include <stddef.h>

enum { LISTS = 2 };

struct entry { struct entry *next; int key; };

static struct { pthread_mutex_t lock; struct entry *first; } table[LISTS] = {
    {PTHREAD_MUTEX_INITIALIZER, NULL}, {PTHREAD_MUTEX_INITIALIZER, NULL}};

static void put(int list, struct entry *e) {
    e->next = table[list].first;
    table[list].first = e;
}

static struct entry *get(int list) {
    struct entry *e = table[list].first;
    table[list].first = e->next;
    return e;
}

static void *move(void *unused) {
    pthread_mutex_lock(&table[0].lock);
#ifdef MENDED
    pthread_mutex_lock(&table[1].lock);
    put(1, get(0));
    pthread_mutex_unlock(&table[1].lock);
    pthread_mutex_unlock(&table[0].lock);
#else
    struct entry *e = get(0);
    pthread_mutex_unlock(&table[0].lock);
    pthread_mutex_lock(&table[1].lock);
    put(1, e);
    pthread_mutex_unlock(&table[1].lock);
#endif
    return unused;
}

static void *count(void *unused) {
    int n = 0;
    for (int list = 0; list < LISTS; list++)
        pthread_mutex_lock(&table[list].lock);
    for (int list = 0; list < LISTS; list++)
        for (struct entry *e = table[list].first; e; e = e->next)
            n++;
    for (int list = 0; list < LISTS; list++)
        pthread_mutex_unlock(&table[list].lock);
    assert(n == 1);
    return unused;
}

int main(void) {
    static struct entry entry = {NULL, 7};
    pthread_t a, b;
    put(0, &entry);
    pthread_create(&a, NULL, move, NULL);
    pthread_create(&b, NULL, count, NULL);
    pthread_join(a, NULL);
    pthread_join(b, NULL);
    return 0;
}
