/* Threads. Each has a place: a block, a stack, and a thread of the kernel. The kernel's thread ends with the pthread, so that whoever
   joins it by the kernel's call knows, and a search too, that all that it did came first.

   The kernel makes only so many threads in all, ended ones included. So if few are left for how many run, a new one parks at its end:
   it waits for another function, and is joined by the word `over`. A program that starts few threads never meets this. */
#include "kernel.h"
#include "program.h"
#include "wait.h"

#include <errno.h>
#include <stdlib.h>
#include <string.h>

enum { WORKS, HAS_STOPPED, BEGINS, IS_FREE, IS_TAKEN }; /* `over` of a thread that parks */

void __thread_entry(void);
_Noreturn void __restart(void *tp, void *sp);
void __destroy_specifics(struct thread *) __attribute__((weak));

unsigned __next_slot = 1;
static unsigned joined_count;

/* ---- the end of a thread */

void __delorean_push(struct __delorean_cleanup *c) {
    c->before = me()->cleanup;
    me()->cleanup = c;
}

void __delorean_pop(struct __delorean_cleanup *c, int run) {
    me()->cleanup = c->before;
    if (run)
        c->function(c->argument);
}

static void clean_up(struct thread *t) {
    while (t->cleanup)
        __delorean_pop(t->cleanup, 1);
    if (__destroy_specifics)
        __destroy_specifics(t);
    __check_stack(t);
}

static int has_stopped(unsigned over) { return over != WORKS && over != BEGINS; }

static int is_over(struct thread *t) { return t->parks ? has_stopped(LOAD(t->over)) : (int)has_ended(t->number); }

int __is_over(struct thread *t) { return LOAD(t->number) && is_over(t); }

static void wait_for_end(struct thread *t, void *at) {
    begin_wait(THREAD_END, t, at);
    WAIT_WHILE(LOAD(t->number) == 0);
    WAIT_WHILE(!is_over(t));
    end_wait();
}

/* main may end before its threads; then the program lasts until all have ended. */
_Noreturn static void end_after_all(void *at) {
    for (unsigned slot = 1; slot < LOAD(__next_slot); slot++)
        if (!thread_of(slot)->joined)
            wait_for_end(thread_of(slot), at);
    exit(0);
}

_Noreturn static void park(struct thread *t) {
    (void)SWAP(t->over, HAS_STOPPED);
    WAIT_WHILE(LOAD(t->over) != BEGINS);
    __restart(tp_of(t), t);
}

_Noreturn static void end(void *result, void *at) {
    struct thread *t = me();
    clean_up(t);
    if (t->slot == 0)
        end_after_all(at);
    t->result = result;
    if (t->parks)
        park(t);
    kernel(0, 0, 0, CALL_EXIT);
    __builtin_unreachable();
}

_Noreturn void pthread_exit(void *result) { end(result, CALLER); }

/* ---- its beginning */

static void begin_anew(struct thread *t) {
    memset(&t->waits, 0, __builtin_offsetof(struct thread, freed) - __builtin_offsetof(struct thread, waits));
    memset(tp_of(t), 0, __numbers.tls_room);
    STORE(t->over, WORKS);
}

void __start_thread(void) {
    struct thread *t = me();
    if (t->parks && LOAD(t->over) == BEGINS)
        begin_anew(t);
    __mark_stack(t);
    if (__numbers.tls_filled)
        memcpy(tp_of(t), __tls_start, __numbers.tls_filled);
    end(t->function(t->argument), 0);
}

static void prepare(struct thread *t, const pthread_attr_t *attributes, void *(*function)(void *), void *argument) {
    t->function = function;
    t->argument = argument;
    t->detached = attributes && attributes->detached;
    t->joined = 0;
}

static int claim(struct thread *t) {
    unsigned over;
    do {
        over = LOAD_RESERVED(t->over);
        if (over != IS_FREE && !(over == HAS_STOPPED && t->detached)) {
            GIVE_UP_RESERVATION();
            return 0;
        }
    } while (STORE_CONDITIONAL(t->over, IS_TAKEN));
    return 1;
}

static struct thread *parked_thread(void) {
    for (unsigned slot = 1; slot < __numbers.most_threads; slot++)
        if (thread_of(slot)->parks && claim(thread_of(slot)))
            return thread_of(slot);
    return NULL;
}

/* Whether so few threads are left that this one, the next, is kept for others. */
static int is_to_park(unsigned slot) {
    unsigned run = slot - LOAD(joined_count), left = __numbers.most_threads - 1 - slot;
    return left < 2 * run;
}

static int none_is_left(void) {
    static const char text[] = "pthread_create: no thread is left: give delorean-cc --threads 63\n";
    __put(text, sizeof text - 1);
    return EAGAIN;
}

static int start_new(struct thread *t, unsigned slot) {
    t->slot = slot;
    t->parks = is_to_park(slot);
    KEEP_ORDER;
    unsigned number = kernel((unsigned)(uintptr_t)__thread_entry, (unsigned)(uintptr_t)t, (unsigned)(uintptr_t)tp_of(t), CALL_SPAWN);
    STORE(t->number, number);
    return number == REFUSED ? none_is_left() : 0;
}

int pthread_create(pthread_t *thread, const pthread_attr_t *attributes, void *(*function)(void *), void *argument) {
    unsigned slot = LOAD(__next_slot) < __numbers.most_threads ? ADD(__next_slot, 1) : ~0u;
    int is_new = slot < __numbers.most_threads;
    struct thread *t = is_new ? thread_of(slot) : parked_thread();
    if (t == NULL)
        return none_is_left();
    prepare(t, attributes, function, argument);
    *thread = (pthread_t)t;
    if (is_new)
        return start_new(t, slot);
    (void)SWAP(t->over, BEGINS);
    return 0;
}

/* A thread that nobody joins and that never ends. */
int __start_library_thread(void *(*function)(void *)) {
    unsigned slot = ADD(__next_slot, 1);
    prepare(thread_of(slot), NULL, function, NULL);
    thread_of(slot)->joined = 1;
    return start_new(thread_of(slot), slot);
}

/* ---- joining */

int pthread_join(pthread_t thread, void **result) {
    struct thread *t = (struct thread *)thread;
    if (t == me())
        return EDEADLK;
    if (t->detached)
        return EINVAL;
    wait_for_end(t, CALLER);
    if (t->joined)
        return ESRCH;
    t->joined = 1;
    (void)ADD(joined_count, 1);
    if (result)
        *result = t->result;
    if (t->parks)
        (void)SWAP(t->over, IS_FREE);
    return 0;
}

int pthread_tryjoin_np(pthread_t thread, void **result) {
    struct thread *t = (struct thread *)thread;
    return __is_over(t) ? pthread_join(thread, result) : EBUSY;
}

int pthread_timedjoin_np(pthread_t thread, void **result, const struct timespec *until) {
    struct thread *t = (struct thread *)thread;
    int late = 0;
    begin_wait(THREAD_END, t, CALLER);
    WAIT_WHILE(LOAD(t->number) == 0);
    WAIT_WHILE(!is_over(t) && !(late = __past(until)));
    end_wait();
    return late ? ETIMEDOUT : pthread_join(thread, result);
}

int pthread_detach(pthread_t thread) {
    struct thread *t = (struct thread *)thread;
    if (t->detached || t->joined)
        return EINVAL;
    t->detached = 1;
    return 0;
}

pthread_t pthread_self(void) { return (pthread_t)me(); }
int pthread_equal(pthread_t a, pthread_t b) { return a == b; }
int pthread_yield(void) { return sched_yield(); }
int pthread_setname_np(pthread_t thread, const char *name) { (void)thread; (void)name; return 0; }

int sched_yield(void) {
    kernel(0, 0, 0, CALL_YIELD);
    return 0;
}

int pthread_setcancelstate(int state, int *before) { (void)state; if (before) *before = PTHREAD_CANCEL_ENABLE; return 0; }
int pthread_setcanceltype(int type, int *before) { (void)type; if (before) *before = PTHREAD_CANCEL_DEFERRED; return 0; }
void pthread_testcancel(void) {}
