/* A server: clients put requests into a queue with a bound, workers answer them from a cache of squares, and a cleaner takes entries
   out of the cache that nobody uses. The bug is in line 121: a worker says that it uses an entry after it has given back the lock of
   the list, so the cleaner may free the entry between. */
#include <assert.h>
#include <pthread.h>
#include <stdatomic.h>
#include <stdio.h>
#include <stdlib.h>

#ifndef WORKERS
#define WORKERS 4
#endif
#ifndef CLIENTS
#define CLIENTS 2
#endif
#ifndef REQUESTS
#define REQUESTS 6 /* of each client */
#endif

enum { QUEUE_ROOM = 4, LISTS = 4, KEYS = 3, CLEANINGS = 2, STOP = -1 };

/* ---------------------------------------------------------------- the queue */

static struct {
    pthread_mutex_t lock;
    pthread_cond_t not_empty, not_full;
    int keys[QUEUE_ROOM];
    unsigned first, count;
} queue = {.lock = PTHREAD_MUTEX_INITIALIZER, .not_empty = PTHREAD_COND_INITIALIZER, .not_full = PTHREAD_COND_INITIALIZER};

static void put(int key) {
    pthread_mutex_lock(&queue.lock);
    while (queue.count == QUEUE_ROOM)
        pthread_cond_wait(&queue.not_full, &queue.lock);
    queue.keys[(queue.first + queue.count++) % QUEUE_ROOM] = key;
    pthread_cond_signal(&queue.not_empty);
    pthread_mutex_unlock(&queue.lock);
}

static int get(void) {
    pthread_mutex_lock(&queue.lock);
    while (queue.count == 0)
        pthread_cond_wait(&queue.not_empty, &queue.lock);
    int key = queue.keys[queue.first];
    queue.first = (queue.first + 1) % QUEUE_ROOM;
    queue.count--;
    pthread_cond_signal(&queue.not_full);
    pthread_mutex_unlock(&queue.lock);
    return key;
}

/* ---------------------------------------------------------------- counts */

static struct { atomic_uint answered, hits, misses, cleaned; } counts;

static void count(atomic_uint *what) { atomic_fetch_add_explicit(what, 1, memory_order_relaxed); }

/* ---------------------------------------------------------------- the cache */

struct entry { struct entry *next; int key, square; atomic_int users; };

static struct { pthread_mutex_t lock; struct entry *first; } cache[LISTS];

static void begin_cache(void) {
    for (int j = 0; j < LISTS; j++)
        pthread_mutex_init(&cache[j].lock, NULL);
}

static struct entry *find(int list, int key) {
    struct entry *e = cache[list].first;
    while (e && e->key != key)
        e = e->next;
    return e;
}

static struct entry *add(int list, int key) {
    struct entry *e = malloc(sizeof *e);
    e->key = key;
    e->square = key * key;
    atomic_init(&e->users, 0);
    e->next = cache[list].first;
    cache[list].first = e;
    return e;
}

static void let_go(struct entry *e) { atomic_fetch_sub(&e->users, 1); }

/* Frees the entries of a list that nobody uses. */
static void clean(int list) {
    pthread_mutex_lock(&cache[list].lock);
    struct entry **link = &cache[list].first;
    while (*link) {
        struct entry *e = *link;
        if (atomic_load(&e->users) == 0) {
            *link = e->next;
            free(e);
            count(&counts.cleaned);
        } else {
            link = &e->next;
        }
    }
    pthread_mutex_unlock(&cache[list].lock);
}

/* The entry of a key, which isn't freed until it is let go. */
static struct entry *use(int key) {
    int list = key % LISTS;
    pthread_mutex_lock(&cache[list].lock);
    struct entry *e = find(list, key);
    if (e) {
        count(&counts.hits);
    } else {
        count(&counts.misses);
        e = add(list, key);
    }
#ifdef MENDED
    atomic_fetch_add(&e->users, 1);
#endif
    pthread_mutex_unlock(&cache[list].lock);
#ifndef MENDED
    atomic_fetch_add(&e->users, 1);
#endif
    return e;
}

/* ---------------------------------------------------------------- threads */

static void *worker(void *unused) {
    int key;
    while ((key = get()) != STOP) {
        struct entry *e = use(key);
        assert(e->key == key && e->square == key * key);
        let_go(e);
        count(&counts.answered);
    }
    return unused;
}

static void *client(void *number) {
    for (int j = 0; j < REQUESTS; j++)
        put(((int)(long)number + j) % KEYS);
    return NULL;
}

static void *cleaner(void *unused) {
    for (int j = 0; j < CLEANINGS; j++)
        for (int list = 0; list < LISTS; list++)
            clean(list);
    return unused;
}

int main(void) {
    pthread_t clients[CLIENTS], workers[WORKERS], cleaning;
    begin_cache();
    for (int j = 0; j < WORKERS; j++)
        pthread_create(&workers[j], NULL, worker, NULL);
    for (long j = 0; j < CLIENTS; j++)
        pthread_create(&clients[j], NULL, client, (void *)j);
    pthread_create(&cleaning, NULL, cleaner, NULL);
    for (int j = 0; j < CLIENTS; j++)
        pthread_join(clients[j], NULL);
    for (int j = 0; j < WORKERS; j++)
        put(STOP);
    for (int j = 0; j < WORKERS; j++)
        pthread_join(workers[j], NULL);
    pthread_join(cleaning, NULL);
    assert(counts.answered == CLIENTS * REQUESTS);
    assert(counts.hits + counts.misses == counts.answered);
    printf("%u answered, %u of them from the cache\n", counts.answered, counts.hits);
    for (int list = 0; list < LISTS; list++)
        clean(list);
    return 0;
}
