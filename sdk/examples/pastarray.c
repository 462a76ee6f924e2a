/* A line is copied into an array on another thread's stack. The bug is in line 20: the length is looked at once to see that it
   fits, and once more for the copy, and may have grown between. What lies after the array is overwritten. */
#include <assert.h>
#include <pthread.h>

enum { ROOM = 4, GUARD = 0x600D };

struct line { int words[ROOM], guard; };

static volatile int length = 2;

static void copy(struct line *to) {
#ifdef MENDED
    int count = length;
#else
#define count length
#endif
    if (count > ROOM)
        return;
    for (int j = 0; j < count; j++)
        to->words[j] = j;
}

static void *grow(void *unused) {
    length = ROOM + 1;
    return unused;
}

static void *reader(void *to) {
    copy(to);
    return NULL;
}

int main(void) {
    struct line line = {.guard = GUARD};
    pthread_t a, b;
    pthread_create(&a, NULL, reader, &line);
    pthread_create(&b, NULL, grow, NULL);
    pthread_join(a, NULL);
    pthread_join(b, NULL);
    assert(line.guard == GUARD);
    return 0;
}
