#include <assert.h>
#include <pthread.h>

static int balance = 100;
static pthread_mutex_t lock = PTHREAD_MUTEX_INITIALIZER;

static void *deposit(void *amount) {
    pthread_mutex_lock(&lock);
    balance += *(int *)amount;
    pthread_mutex_unlock(&lock);
    return 0;
}

int main(void) {
    pthread_t a, b;
    int ten = 10, five = 5;
    pthread_create(&a, 0, deposit, &ten);
    pthread_create(&b, 0, deposit, &five);
    pthread_join(a, 0);
    pthread_join(b, 0);
    assert(balance == 115);
    return 0;
}
