/* A box for one thing, with one condition for those who put and those who take. The bug is in line 20: one waiter is woken, and
   it may be one that waits for the same as the one that wakes it, so nobody goes on. */
#include <pthread.h>

#ifdef MENDED
#define wake pthread_cond_broadcast
#else
#define wake pthread_cond_signal
#endif

static pthread_mutex_t lock = PTHREAD_MUTEX_INITIALIZER;
static pthread_cond_t changed = PTHREAD_COND_INITIALIZER;
static int is_full;

static void set(int value) {
    pthread_mutex_lock(&lock);
    while (is_full == value)
        pthread_cond_wait(&changed, &lock);
    is_full = value;
    wake(&changed);
    pthread_mutex_unlock(&lock);
}

static void *put_two(void *unused) {
    set(1);
    set(1);
    return unused;
}

static void *take(void *unused) {
    set(0);
    return unused;
}

int main(void) {
    pthread_t putter, takers[2];
    pthread_create(&takers[0], NULL, take, NULL);
    pthread_create(&takers[1], NULL, take, NULL);
    pthread_create(&putter, NULL, put_two, NULL);
    pthread_join(takers[0], NULL);
    pthread_join(takers[1], NULL);
    pthread_join(putter, NULL);
    return 0;
}
