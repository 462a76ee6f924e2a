/* A correct program. A function with an array of OUTER bytes calls one with an array of INNER bytes: in two threads, or in main. */
#include <pthread.h>
#include <stdio.h>
#include <string.h>

static pthread_mutex_t lock = PTHREAD_MUTEX_INITIALIZER;
static char last[64];

static void format(char *out, int k) {
    char line[INNER];
    snprintf(line, sizeof line, "worker %d", k);
    strncpy(out, line, 12);
}

static void *worker(void *number) {
    char buffer[OUTER];
    format(buffer, *(int *)number);
    pthread_mutex_lock(&lock);
    strncpy(last, buffer, 12);
    pthread_mutex_unlock(&lock);
    return NULL;
}

int main(void) {
    pthread_t threads[2];
    int numbers[2] = {1, 2};
#ifdef IN_MAIN
    worker(&numbers[0]);
#endif
    for (int i = 0; i < THREADS; i++)
        pthread_create(&threads[i], NULL, worker, &numbers[i]);
    for (int i = 0; i < THREADS; i++)
        pthread_join(threads[i], NULL);
    return strncmp(last, "worker ", 7) != 0;
}
