/* Threads append names to a list of two. The bug is in line 19: whether there is room is looked at before the lock is taken, so
   two threads may see the last place free, and the second one writes past the end of the block. */
#include <pthread.h>
#include <stdlib.h>

enum { ROOM = 2 };

static pthread_mutex_t lock = PTHREAD_MUTEX_INITIALIZER;
static volatile int count;
static int *numbers;

static void append(int number) {
#ifdef MENDED
    pthread_mutex_lock(&lock);
    if (count < ROOM)
        numbers[count++] = number;
    pthread_mutex_unlock(&lock);
#else
    if (count < ROOM) {
        pthread_mutex_lock(&lock);
        numbers[count++] = number;
        pthread_mutex_unlock(&lock);
    }
#endif
}

static void *add_two(void *first) {
    int number = (int)(long)first;
    append(number);
    append(number + 1);
    return NULL;
}

int main(void) {
    pthread_t a, b;
    numbers = malloc(ROOM * sizeof *numbers);
    pthread_create(&a, NULL, add_two, (void *)10L);
    pthread_create(&b, NULL, add_two, (void *)20L);
    pthread_join(a, NULL);
    pthread_join(b, NULL);
    int is_over = count > ROOM;
    free(numbers);
    return is_over;
}
