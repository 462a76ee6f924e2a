/* A semaphore lets in as many as were posted, and no post is lost: the threads get tokens, and give each other's back. */
#include <assert.h>
#include <pthread.h>
#include <semaphore.h>

static sem_t tokens;
static int inside;

static void *work(void *argument) {
    sem_wait(&tokens);
    assert(__atomic_add_fetch(&inside, 1, __ATOMIC_SEQ_CST) <= TOKENS);
    __atomic_sub_fetch(&inside, 1, __ATOMIC_SEQ_CST);
    sem_post(&tokens);
    return argument;
}

int main(void) {
    pthread_t threads[THREADS];
    sem_init(&tokens, 0, 0);
    for (int j = 0; j < THREADS; j++)
        pthread_create(&threads[j], 0, work, 0);
    for (int j = 0; j < TOKENS; j++)
        sem_post(&tokens);
    for (int j = 0; j < THREADS; j++)
        pthread_join(threads[j], 0);
    int left = 0;
    while (sem_trywait(&tokens) == 0)
        left++;
    assert(left == TOKENS);
    return 0;
}
