/* Three philosophers at a table. The bug is in line 18: each takes the fork on the left first and then the one on the right, so
   all may have one and wait for the other. */
#include <pthread.h>

enum { N = 3 };
static pthread_mutex_t forks[N];
static int meals[N];

static void *dine(void *p) {
    int j = (int)(long)p, left = j, right = (j + 1) % N;
#ifdef MENDED
    if (left > right) {
        left = right;
        right = j;
    }
#endif
    pthread_mutex_lock(&forks[left]);
    pthread_mutex_lock(&forks[right]);
    meals[j]++;
    pthread_mutex_unlock(&forks[right]);
    pthread_mutex_unlock(&forks[left]);
    return NULL;
}

int main(void) {
    pthread_t t[N];
    for (int j = 0; j < N; j++)
        pthread_mutex_init(&forks[j], NULL);
    for (long j = 0; j < N; j++)
        pthread_create(&t[j], NULL, dine, (void *)j);
    for (int j = 0; j < N; j++)
        pthread_join(t[j], NULL);
    return 0;
}
