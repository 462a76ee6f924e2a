/* Money is taken from an account if there is enough. The bug is in line 11: the balance is looked at in one locked region and
   changed in another, so two threads may both find enough. */
#include <assert.h>
#include <pthread.h>

static pthread_mutex_t lock = PTHREAD_MUTEX_INITIALIZER;
static int balance = 100;

static void withdraw(int amount) {
    pthread_mutex_lock(&lock);
    int has_enough = balance >= amount;
#ifndef MENDED
    pthread_mutex_unlock(&lock);
    pthread_mutex_lock(&lock);
#endif
    if (has_enough)
        balance -= amount;
    pthread_mutex_unlock(&lock);
}

static void *customer(void *unused) {
    withdraw(70);
    return unused;
}

int main(void) {
    pthread_t a, b;
    pthread_create(&a, NULL, customer, NULL);
    pthread_create(&b, NULL, customer, NULL);
    pthread_join(a, NULL);
    pthread_join(b, NULL);
    assert(balance >= 0);
    return 0;
}
