/* A pool of threads that count words: a queue of tasks in blocks of the heap, and a table of words with a lock. The bug is in line
   110: the pool is stopped without the queue's lock, so a worker that has seen no task and no stop sleeps for ever. */
#include <assert.h>
#include <pthread.h>
#include <stdlib.h>
#include <string.h>

#ifndef WORKERS
#define WORKERS 3
#endif
#ifndef TASKS
#define TASKS 6
#endif

enum { LISTS = 8, LONGEST = 11 };

struct task { struct task *next; void (*run)(const char *); char word[LONGEST + 1]; };
struct entry { struct entry *next; char word[LONGEST + 1]; int count; };

struct pool {
    pthread_mutex_t lock;
    pthread_cond_t some;
    struct task *first, **last;
    int is_stopped;
    pthread_t threads[WORKERS];
};

static struct entry *table[LISTS];
static pthread_mutex_t table_lock = PTHREAD_MUTEX_INITIALIZER;

/* ---------------------------------------------------------------- the table */

static unsigned list_of(const char *word) {
    unsigned h = 0;
    for (; *word; word++)
        h = h * 31 + (unsigned char)*word;
    return h % LISTS;
}

static struct entry *find(const char *word) {
    struct entry *e = table[list_of(word)];
    while (e && strcmp(e->word, word) != 0)
        e = e->next;
    return e;
}

static struct entry *add(const char *word) {
    struct entry *e = calloc(1, sizeof *e);
    strncpy(e->word, word, LONGEST);
    e->next = table[list_of(word)];
    table[list_of(word)] = e;
    return e;
}

static void count(const char *word) {
    pthread_mutex_lock(&table_lock);
    struct entry *e = find(word);
    if (e == NULL)
        e = add(word);
    e->count++;
    pthread_mutex_unlock(&table_lock);
}

/* ---------------------------------------------------------------- the pool */

static struct task *next_task(struct pool *p) {
    pthread_mutex_lock(&p->lock);
    while (p->first == NULL && !p->is_stopped)
        pthread_cond_wait(&p->some, &p->lock);
    struct task *t = p->first;
    if (t) {
        p->first = t->next;
        if (p->first == NULL)
            p->last = &p->first;
    }
    pthread_mutex_unlock(&p->lock);
    return t;
}

static void *work(void *pool) {
    struct task *t;
    while ((t = next_task(pool)) != NULL) {
        t->run(t->word);
        free(t);
    }
    return NULL;
}

static void submit(struct pool *p, void (*run)(const char *), const char *word) {
    struct task *t = calloc(1, sizeof *t);
    t->run = run;
    strncpy(t->word, word, LONGEST);
    pthread_mutex_lock(&p->lock);
    *p->last = t;
    p->last = &t->next;
    pthread_cond_signal(&p->some);
    pthread_mutex_unlock(&p->lock);
}

static void begin(struct pool *p) {
    pthread_mutex_init(&p->lock, NULL);
    pthread_cond_init(&p->some, NULL);
    p->last = &p->first;
    for (int j = 0; j < WORKERS; j++)
        pthread_create(&p->threads[j], NULL, work, p);
}

static void end(struct pool *p) {
#ifndef MENDED
    p->is_stopped = 1;
    pthread_cond_broadcast(&p->some);
#else
    pthread_mutex_lock(&p->lock);
    p->is_stopped = 1;
    pthread_cond_broadcast(&p->some);
    pthread_mutex_unlock(&p->lock);
#endif
    for (int j = 0; j < WORKERS; j++)
        pthread_join(p->threads[j], NULL);
}

int main(void) {
    static const char *const words[] = {"to", "be", "or", "not", "to", "be"};
    static struct pool pool;
    begin(&pool);
    for (int j = 0; j < TASKS; j++)
        submit(&pool, count, words[j % 6]);
    end(&pool);
    int sum = 0;
    for (int j = 0; j < LISTS; j++)
        for (struct entry *e = table[j]; e; e = e->next)
            sum += e->count;
    assert(sum == TASKS);
    return 0;
}
