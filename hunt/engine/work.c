#define _POSIX_C_SOURCE 200809L
#include "work.h"

#include "crew.h"

#include <pthread.h>
#include <time.h>

enum { MOST_TAKEN = 4096 };

static pthread_mutex_t lock = PTHREAD_MUTEX_INITIALIZER;
static pthread_cond_t is_more = PTHREAD_COND_INITIALIZER;
static struct list left;
static uint32_t at_work;
static _Atomic uint32_t waiting;
static _Atomic bool stopped;

void stop_work(void) {
    stopped = true;
    pthread_mutex_lock(&lock);
    pthread_cond_broadcast(&is_more);
    pthread_mutex_unlock(&lock);
}

void allow_work(void) { stopped = false; }

bool is_stopped(void) { return stopped; }

bool others_want_work(void) { return waiting > 0; }

struct list *work_left(void) { return &left; }

static void wait_a_while(void (*meanwhile)(void)) {
    struct timespec until;
    clock_gettime(CLOCK_REALTIME, &until);
    until.tv_nsec += 200000000;
    until.tv_sec += until.tv_nsec / 1000000000;
    until.tv_nsec %= 1000000000;
    pthread_cond_timedwait(&is_more, &lock, &until);
    pthread_mutex_unlock(&lock);
    meanwhile();
    pthread_mutex_lock(&lock);
}

size_t work_count(void) {
    pthread_mutex_lock(&lock);
    size_t count = left.count;
    pthread_mutex_unlock(&lock);
    return count;
}

/* The last ones, of which each of the crew can have a part. */
static size_t share_of(size_t count) {
    size_t share = crew_size() == 1 ? count : count / (4 * crew_size()) + 1;
    return share < MOST_TAKEN ? share : MOST_TAKEN;
}

bool take_work(struct list *some, void (*meanwhile)(void)) {
    some->count = 0;
    delay("take");
    pthread_mutex_lock(&lock);
    waiting++;
    while (left.count == 0 && at_work > 0 && !stopped)
        wait_a_while(meanwhile);
    waiting--;
    if (!stopped && left.count > 0) {
        struct list last = {.count = share_of(left.count)};
        left.count -= last.count;
        last.items = left.items + left.count;
        push_all(some, &last);
        at_work++;
    }
    pthread_mutex_unlock(&lock);
    return some->count > 0;
}

void give_back(const struct list *untried) {
    delay("give back");
    pthread_mutex_lock(&lock);
    push_all(&left, untried);
    at_work--;
    pthread_cond_broadcast(&is_more);
    pthread_mutex_unlock(&lock);
}

void give_work(const uint32_t *items, size_t count) {
    struct list some = {.items = (uint32_t *)items, .count = count};
    if (count == 0)
        return;
    pthread_mutex_lock(&lock);
    push_all(&left, &some);
    if (waiting > 0)
        pthread_cond_broadcast(&is_more);
    pthread_mutex_unlock(&lock);
}
