/* delorean.h for the host: threads are those of POSIX, so that other tools can look at the same programs. It has no devices, no
   pipes and no interrupts. */
#ifndef DELOREAN_H
#define DELOREAN_H

#include <pthread.h>
#include <sched.h>

enum { MOST_THREADS = 16 };

struct stack {
    unsigned words[64];
};

static struct start {
    unsigned (*function)(unsigned);
    unsigned argument;
    pthread_t thread;
} starts[MOST_THREADS];
static unsigned started;

static void *begin(void *start) {
    struct start *mine = start;
    mine->function(mine->argument);
    return 0;
}

static inline unsigned start_thread(unsigned (*function)(unsigned), unsigned argument, struct stack *stack) {
    (void)stack;
    starts[started].function = function;
    starts[started].argument = argument;
    pthread_create(&starts[started].thread, 0, begin, &starts[started]);
    return started++;
}

static inline void join(unsigned thread) { pthread_join(starts[thread].thread, 0); }
static inline unsigned yield(void) { return (unsigned)sched_yield(); }

/* Ends the thread by a fault if what must hold doesn't. A search for --bad fault ends there. */
#define must(holds)           \
    do {                      \
        if (!(holds))         \
            __builtin_trap(); \
    } while (0)

#endif
