/* A line of the log in two pieces. The bug is in line 10. */
#include <pthread.h>
#include <stdio.h>

static pthread_mutex_t lock = PTHREAD_MUTEX_INITIALIZER;

static void *say(void *name) {
#ifndef MENDED
    (void)lock;
    printf("[%s", (char *)name);
    printf("]\n");
#else
    pthread_mutex_lock(&lock);
    printf("[%s", (char *)name);
    printf("]\n");
    pthread_mutex_unlock(&lock);
#endif
    return NULL;
}

int main(void) {
    pthread_t a, b;
    pthread_create(&a, NULL, say, "a");
    pthread_create(&b, NULL, say, "b");
    pthread_join(a, NULL);
    pthread_join(b, NULL);
    return 0;
}
