/* A driver counts who uses it, and is stopped when nobody does (Qadeer and Wu's Bluetooth driver). The bug is in line 22:
   whether it is stopping is looked at before the count is raised, so it may be stopped between. */
#include <assert.h>
#include <pthread.h>
#include <stdatomic.h>

static atomic_int users = 1, is_stopping, is_stopped;

static void leave(void) {
    if (atomic_fetch_sub(&users, 1) == 1)
        atomic_store(&is_stopped, 1);
}

static int enter(void) {
#ifdef MENDED
    atomic_fetch_add(&users, 1);
    if (!atomic_load(&is_stopping))
        return 1;
    leave();
    return 0;
#else
    if (atomic_load(&is_stopping))
        return 0;
    atomic_fetch_add(&users, 1);
    return 1;
#endif
}

static void *use(void *unused) {
    if (enter()) {
        assert(!atomic_load(&is_stopped));
        leave();
    }
    return unused;
}

static void *stop(void *unused) {
    atomic_store(&is_stopping, 1);
    leave();
    return unused;
}

int main(void) {
    pthread_t a, b;
    pthread_create(&a, NULL, use, NULL);
    pthread_create(&b, NULL, stop, NULL);
    pthread_join(a, NULL);
    pthread_join(b, NULL);
    return 0;
}
