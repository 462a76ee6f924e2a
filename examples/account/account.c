#include <assert.h>
#include <pthread.h>

static int balance = 100;

static void *deposit(void *amount) {
    balance += *(int *)amount;
    return 0;
}

int main(void) {
    pthread_t a, b;
    int ten = 10, five = 5;
    pthread_create(&a, 0, deposit, &ten);
    pthread_create(&b, 0, deposit, &five);
    pthread_join(a, 0);
    pthread_join(b, 0);
    assert(balance == 115);
    return 0;
}
