/* Slots of a table have a generation, so that an old handle is noticed. The bug is in line 11: the generation is compared
   before the slot is locked, and the slot may be given to somebody else between. */
#include <assert.h>
#include <pthread.h>

static pthread_mutex_t lock = PTHREAD_MUTEX_INITIALIZER;
static struct { volatile int generation, owner, balance; } slot = {1, 10, 0};

static void pay(int generation, int owner) {
#ifndef MENDED
    if (slot.generation != generation)
        return;
#endif
    pthread_mutex_lock(&lock);
#ifdef MENDED
    if (slot.generation == generation) {
#endif
        assert(slot.owner == owner);
        slot.balance++;
#ifdef MENDED
    }
#endif
    pthread_mutex_unlock(&lock);
}

static void *customer(void *unused) {
    pay(1, 10);
    return unused;
}

static void *recycle(void *unused) {
    pthread_mutex_lock(&lock);
    slot.generation = 2;
    slot.owner = 20;
    pthread_mutex_unlock(&lock);
    return unused;
}

int main(void) {
    pthread_t a, b;
    pthread_create(&a, NULL, customer, NULL);
    pthread_create(&b, NULL, recycle, NULL);
    pthread_join(a, NULL);
    pthread_join(b, NULL);
    return 0;
}
