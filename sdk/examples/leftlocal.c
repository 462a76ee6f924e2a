/* A detached thread puts its answer into a local variable of a function that started it. The bug is in line 18: the thread gets
   the variable's address, and the function returns before the answer comes, which then lies over another function's numbers. */
#include <assert.h>
#include <pthread.h>
#include <semaphore.h>

static sem_t answered;

static void *answer(void *to) {
    *(volatile int *)to = 42;
    sem_post(&answered);
    return NULL;
}

static __attribute__((noinline)) void ask(void) {
    pthread_t thread;
    volatile int value[8] = {0};
    pthread_create(&thread, NULL, answer, (void *)value);
    pthread_detach(thread);
#ifdef MENDED
    sem_wait(&answered);
    sem_post(&answered);
#endif
}

static __attribute__((noinline)) int sum(void) {
    volatile int numbers[24] = {0};
    int total = 0;
    sem_wait(&answered);
    for (int j = 0; j < 24; j++)
        total += numbers[j];
    return total;
}

int main(void) {
    sem_init(&answered, 0, 0);
    ask();
    assert(sum() == 0);
    return 0;
}
