/* Money goes from one account to another, and each account has a lock. The bug is in line 18: the lock of the account that pays
   is taken first, so two transfers that go both ways wait for one another. */
#include <pthread.h>

struct account { pthread_mutex_t lock; int balance; };

static struct account alice = {PTHREAD_MUTEX_INITIALIZER, 50}, bob = {PTHREAD_MUTEX_INITIALIZER, 50};

static void transfer(struct account *from, struct account *to, int amount) {
    struct account *first = from, *second = to;
#ifdef MENDED
    if (first > second) {
        first = to;
        second = from;
    }
#endif
    pthread_mutex_lock(&first->lock);
    pthread_mutex_lock(&second->lock);
    from->balance -= amount;
    to->balance += amount;
    pthread_mutex_unlock(&second->lock);
    pthread_mutex_unlock(&first->lock);
}

static void *pay_bob(void *unused) {
    transfer(&alice, &bob, 10);
    return unused;
}

static void *pay_alice(void *unused) {
    transfer(&bob, &alice, 20);
    return unused;
}

int main(void) {
    pthread_t a, b;
    pthread_create(&a, NULL, pay_bob, NULL);
    pthread_create(&b, NULL, pay_alice, NULL);
    pthread_join(a, NULL);
    pthread_join(b, NULL);
    return alice.balance + bob.balance == 100 ? 0 : 1;
}
