/* Atomic operations on bytes beside each other, halves and eight bytes. */
#include <assert.h>
#include <pthread.h>
#include <stdatomic.h>

static _Atomic unsigned char bytes[4];
static _Atomic unsigned short half;
static _Atomic unsigned long long eight = 0xFFFFFFFFULL;

static void *work(void *argument) {
    int number = (int)(long)argument;
    atomic_fetch_add(&bytes[number % 2], 1);
    if (WIDE)
        atomic_fetch_add(&eight, 1);
    else
        atomic_fetch_add(&half, 0x101);
    return argument;
}

int main(void) {
    pthread_t threads[THREADS];
    for (long j = 0; j < THREADS; j++)
        pthread_create(&threads[j], 0, work, (void *)j);
    for (int j = 0; j < THREADS; j++)
        pthread_join(threads[j], 0);
    assert(bytes[0] == (THREADS + 1) / 2 && bytes[1] == THREADS / 2 && bytes[2] == 0);
    assert(WIDE ? eight == 0xFFFFFFFFULL + THREADS : half == THREADS * 0x101);
    return 0;
}
