/* A byte is stored past a block's end by a thread that nobody joins. The heap is looked at when main ends, as the thread has ended by
   then. The bug is in line 18. */
#include <pthread.h>
#include <semaphore.h>
#include <stdlib.h>

static sem_t is_done;

static void *write_past(void *nothing) {
#ifdef MENDED
    int last = 5;
#else
    int last = 6;
#endif
    char *text = malloc(6);
    for (int j = 0; j < last; j++)
        text[j] = 'a';
    text[last] = 0;
    sem_post(&is_done);
    return nothing;
}

int main(void) {
    pthread_t thread;
    sem_init(&is_done, 0, 0);
    pthread_create(&thread, NULL, write_past, NULL);
    sem_wait(&is_done);
    return 0;
}
