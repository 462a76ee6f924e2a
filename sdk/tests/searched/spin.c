/* A spin lock lets one in at a time, and with TRIES one who only tries too. */
#include <assert.h>
#include <pthread.h>

static pthread_spinlock_t lock;
static int inside, count;

static void visit(void) {
    assert(inside == 0);
    inside = 1;
    count++;
    inside = 0;
    pthread_spin_unlock(&lock);
}

static void *work(void *argument) {
    pthread_spin_lock(&lock);
    visit();
    if (TRIES && pthread_spin_trylock(&lock) == 0)
        visit();
    return argument;
}

int main(void) {
    pthread_t threads[THREADS];
    pthread_spin_init(&lock, PTHREAD_PROCESS_PRIVATE);
    for (int j = 0; j < THREADS; j++)
        pthread_create(&threads[j], 0, work, 0);
    for (int j = 0; j < THREADS; j++)
        pthread_join(threads[j], 0);
    assert(count >= THREADS && count <= 2 * THREADS);
    return 0;
}
