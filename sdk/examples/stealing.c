/* A deque of tasks: its owner takes from the bottom, a thief from the top. The bug is in line 22: the owner takes the last task
   without seeing that the thief may be taking it too, so the task is done twice. */
#include <assert.h>
#include <pthread.h>
#include <stdatomic.h>

enum { TASKS = 2, NONE = -1 };

static int tasks[TASKS] = {0, 1};
static atomic_int top, bottom = TASKS, done[TASKS];

static int take(void) {
    int b = atomic_fetch_sub(&bottom, 1) - 1, t = atomic_load(&top);
    int task = t <= b ? tasks[b] : NONE;
    if (t < b)
        return task;
#ifdef MENDED
    if (t == b && !atomic_compare_exchange_strong(&top, &t, t + 1))
        task = NONE;
#else
    if (t == b)
        atomic_store(&top, t + 1);
#endif
    atomic_store(&bottom, b + 1);
    return task;
}

static int steal(void) {
    int t = atomic_load(&top), b = atomic_load(&bottom);
    if (t >= b)
        return NONE;
    int task = tasks[t];
    return atomic_compare_exchange_strong(&top, &t, t + 1) ? task : NONE;
}

static void run(int task) {
    if (task != NONE)
        assert(atomic_fetch_add(&done[task], 1) == 0);
}

static void *owner(void *unused) {
    run(take());
    run(take());
    return unused;
}

static void *thief(void *unused) {
    run(steal());
    return unused;
}

int main(void) {
    pthread_t a, b;
    pthread_create(&a, NULL, owner, NULL);
    pthread_create(&b, NULL, thief, NULL);
    pthread_join(a, NULL);
    pthread_join(b, NULL);
    return 0;
}
