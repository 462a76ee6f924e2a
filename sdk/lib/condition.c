/* Condition variables. Whoever waits takes a number, and goes on once so many were woken: so a signal wakes exactly one, the one that
   has waited longest. One word has both counts, so that they change together: below the number of the next that is woken, above that of
   the next that comes. */
#include "kernel.h"
#include "wait.h"

#include <errno.h>

static unsigned next_woken(unsigned word) { return word & 0xFFFF; }
static unsigned next_comes(unsigned word) { return word >> 16; }
static unsigned woken_up_to(unsigned word, unsigned number) { return (word & 0xFFFF0000) | (number & 0xFFFF); }
static int is_after(unsigned word, unsigned number) { return (short)(next_woken(word) - number) > 0; }
static int is_woken(pthread_cond_t *c, unsigned number) { return is_after(LOAD(c->word), number); }

static unsigned come(pthread_cond_t *c) { return next_comes(ADD(c->word, 0x10000)); }

/* Whoever goes without being woken wakes all that have waited longer, too: else a later signal could be for one who is gone. Gives 0 if
   it was woken after all. */
static int give_up(pthread_cond_t *c, unsigned number) {
    unsigned word;
    do {
        word = LOAD_RESERVED(c->word);
        if (is_after(word, number)) {
            GIVE_UP_RESERVATION();
            return 0;
        }
    } while (STORE_CONDITIONAL(c->word, woken_up_to(word, number + 1)));
    return 1;
}

/* ---- waits that return without a signal, with delorean-cc --spurious: each thread may do so once. A thread of the library's own says
   when, so that this comes at any point of an order, or never. */

enum { NONE, ASKED, GRANTED, USED }; /* `chance` of a thread */

extern const unsigned __spurious;
extern unsigned __next_slot;
int __start_library_thread(void *(*)(void *));

static void ask_for_chance(struct thread *t) {
    if (__spurious && LOAD(t->chance) == NONE)
        STORE(t->chance, ASKED);
}

static int has_chance(struct thread *t) { return __spurious && LOAD(t->chance) == GRANTED; }

static void *grant_chances(void *nothing) {
    for (unsigned slot = 0;; slot = slot + 1 < LOAD(__next_slot) ? slot + 1 : 0)
        if (LOAD(thread_of(slot)->chance) == ASKED)
            (void)SWAP(thread_of(slot)->chance, GRANTED);
    return nothing;
}

void __start_chances(void) {
    if (__spurious)
        __start_library_thread(grant_chances);
}

/* ---- waiting */

static int may_wait(pthread_mutex_t *m) {
    return m->kind == PTHREAD_MUTEX_NORMAL || m->owner == (unsigned)(uintptr_t)me();
}

int pthread_cond_wait(pthread_cond_t *c, pthread_mutex_t *m) {
    if (!may_wait(m))
        return EPERM;
    unsigned number = come(c);
    pthread_mutex_unlock(m);
    begin_wait(CONDITION, c, CALLER);
    ask_for_chance(me());
    WAIT_WHILE(!is_woken(c, number) && !has_chance(me()));
    if (has_chance(me()) && give_up(c, number))
        STORE(me()->chance, USED);
    end_wait();
    return __lock_mutex(m, CALLER);
}

int pthread_cond_timedwait(pthread_cond_t *c, pthread_mutex_t *m, const struct timespec *until) {
    if (!may_wait(m))
        return EPERM;
    int late = 0;
    unsigned number = come(c);
    pthread_mutex_unlock(m);
    begin_wait(CONDITION, c, CALLER);
    WAIT_WHILE(!is_woken(c, number) && !(late = __past(until)));
    late = late && give_up(c, number);
    end_wait();
    __lock_mutex(m, CALLER);
    return late ? ETIMEDOUT : 0;
}

int pthread_cond_signal(pthread_cond_t *c) {
    unsigned word;
    do {
        word = LOAD_RESERVED(c->word);
        if (next_woken(word) == next_comes(word)) {
            GIVE_UP_RESERVATION();
            return 0;
        }
    } while (STORE_CONDITIONAL(c->word, woken_up_to(word, next_woken(word) + 1)));
    return 0;
}

int pthread_cond_broadcast(pthread_cond_t *c) {
    unsigned word;
    do {
        word = LOAD_RESERVED(c->word);
        if (next_woken(word) == next_comes(word)) {
            GIVE_UP_RESERVATION();
            return 0;
        }
    } while (STORE_CONDITIONAL(c->word, woken_up_to(word, next_comes(word))));
    return 0;
}

int pthread_cond_init(pthread_cond_t *c, const pthread_condattr_t *a) { (void)a; c->word = 0; return 0; }
int pthread_cond_destroy(pthread_cond_t *c) { (void)c; return 0; }
int pthread_condattr_init(pthread_condattr_t *a) { a->clock = CLOCK_REALTIME; return 0; }
int pthread_condattr_destroy(pthread_condattr_t *a) { (void)a; return 0; }
int pthread_condattr_setclock(pthread_condattr_t *a, clockid_t clock) { a->clock = clock; return 0; }
int pthread_condattr_getclock(const pthread_condattr_t *a, clockid_t *clock) { *clock = a->clock; return 0; }
int pthread_condattr_setpshared(pthread_condattr_t *a, int shared) { (void)a; (void)shared; return 0; }
