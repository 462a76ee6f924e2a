/* How a thread waits: it looks, in a loop that changes nothing, and notes meanwhile what for. */
#ifndef DELOREAN_WAIT_H
#define DELOREAN_WAIT_H

#include "block.h"
#include "word.h"

#define CALLER __builtin_return_address(0)

extern unsigned __program_over; /* 0x100 + its code once the program has ended, although threads may go on */
_Noreturn void __end_first_thread(void);

static inline void begin_wait(enum noted what, const void *object, void *at) {
    struct thread *t = me();
    t->waits = what;
    t->waits_for = object;
    t->waits_at = at;
    KEEP_ORDER;
}

/* Leaves no note: so the thread is as if it hadn't had to wait. */
static inline void end_wait(void) {
    KEEP_ORDER;
    begin_wait(NOTHING, 0, 0);
}

/* The first thread ends if the program has ended meanwhile. */
#define WAIT_WHILE(condition) \
    do { \
        while (condition) \
            if (me()->slot == 0 && LOAD(__program_over)) \
                __end_first_thread(); \
        KEEP_ORDER; \
    } while (0)

int __past(const struct timespec *);
int __lock_mutex(pthread_mutex_t *, void *at);
void __note_held(const void *lock, enum noted how, void *at);
enum noted __note_given(const void *lock);

#endif
