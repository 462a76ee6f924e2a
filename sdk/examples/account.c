/* Two threads change a balance. The bug is in line 12: what another thread stores between this load and this store is lost. */
#include <assert.h>
#include <pthread.h>

static int balance = 100;
static pthread_mutex_t lock = PTHREAD_MUTEX_INITIALIZER;

static void add(int amount) {
#ifdef MENDED
    pthread_mutex_lock(&lock);
#endif
    balance = balance + amount;
#ifdef MENDED
    pthread_mutex_unlock(&lock);
#endif
}

static void *deposit(void *p) { (void)p; for (int j = 0; j < 3; j++) add(10); return NULL; }

static void *withdraw(void *p) { (void)p; for (int j = 0; j < 3; j++) add(-5); return NULL; }
int main(void) {
    pthread_t a, b;
    (void)lock;
    pthread_create(&a, NULL, deposit, NULL);
    pthread_create(&b, NULL, withdraw, NULL);
    pthread_join(a, NULL);
    pthread_join(b, NULL);
    assert(balance == 115);
    return 0;
}
