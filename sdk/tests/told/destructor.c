/* A thread's own buffer is handed to another thread, and is used after the thread's end has freed it. The bug is in line 17. */
#include <assert.h>
#include <pthread.h>
#include <semaphore.h>
#include <stdlib.h>
static pthread_key_t key;
static int *handed;
static sem_t is_there;
static void *owner(void *p) {
    int *mine = malloc(sizeof *mine);
    pthread_setspecific(key, mine);
    *mine = 5;
#ifdef MENDED
    handed = malloc(sizeof *handed);
    *handed = *mine;
#else
    handed = mine;
#endif
    sem_post(&is_there);
    return p;
}
static void *user(void *p) {
    sem_wait(&is_there);
    assert(*handed == 5);
    return p;
}
int main(void) {
    pthread_t a, b;
    sem_init(&is_there, 0, 0);
    pthread_key_create(&key, free);
    pthread_create(&a, NULL, owner, NULL); pthread_create(&b, NULL, user, NULL);
    pthread_join(a, NULL); pthread_join(b, NULL);
    return 0;
}
