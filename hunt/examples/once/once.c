/* Two threads want the same settings, which the first to come fills in. Whoever finds them there doesn't take the lock, so they
   mustn't be seen before they are whole. Ends with how many threads had settings that weren't. */
#include "delorean.h"

enum { THREADS = 2, LIMIT = 40, STEP = 2 };

struct settings {
    volatile unsigned limit, step;
};

static struct settings room;
static struct settings *volatile settings; /* none, until they are filled in */
static unsigned lock;
static volatile unsigned results[THREADS];
static struct stack stacks[THREADS];

static void take(void) {
    while (__atomic_exchange_n(&lock, 1, __ATOMIC_ACQUIRE) != 0)
        ;
}

static void release(void) { __atomic_store_n(&lock, 0, __ATOMIC_RELEASE); }

static void fill_in(void) {
    settings = &room;
    settings->limit = LIMIT;
    settings->step = STEP;
}

static struct settings *the_settings(void) {
    if (settings == 0) {
        take();
        if (settings == 0)
            fill_in();
        release();
    }
    return settings;
}

static unsigned work(unsigned number) {
    struct settings *mine = the_settings();
    results[number] = mine->limit != LIMIT || mine->step != STEP;
    return number;
}

int main(void) {
    unsigned threads[THREADS], wrong = 0;
    for (unsigned i = 0; i < THREADS; i++)
        threads[i] = start_thread(work, i, &stacks[i]);
    for (unsigned i = 0; i < THREADS; i++)
        join(threads[i]);
    for (unsigned i = 0; i < THREADS; i++)
        wrong += results[i];
    return wrong;
}
