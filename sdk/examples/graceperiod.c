/* Readers say when they read, and who replaces what they read waits for them (as RCU does). The bug is in line 30: the new
   value is put in after it has waited, so a reader that comes between still has the old one. */
#include <assert.h>
#include <pthread.h>
#include <stdatomic.h>

static atomic_int old_value = 7, new_value = 7;
static atomic_int *_Atomic current = &old_value;
static atomic_int reading;

static void wait_for_readers(void) {
    while (atomic_load(&reading) > 0)
        ;
}

static void *reader(void *unused) {
    atomic_fetch_add(&reading, 1);
    atomic_int *mine = atomic_load(&current);
    assert(atomic_load(mine) == 7);
    atomic_fetch_sub(&reading, 1);
    return unused;
}

static void *replace(void *unused) {
#ifdef MENDED
    atomic_store(&current, &new_value);
    wait_for_readers();
#else
    wait_for_readers();
    atomic_store(&current, &new_value);
#endif
    atomic_store(&old_value, 0); /* it is used for something else */
    return unused;
}

int main(void) {
    pthread_t a, b;
    pthread_create(&a, NULL, reader, NULL);
    pthread_create(&b, NULL, replace, NULL);
    pthread_join(a, NULL);
    pthread_join(b, NULL);
    return 0;
}
