/* A shared message is replaced and the old one freed, while a reader still has its address. The bug is in line 37: the reader
   takes the address under the lock, and looks at the message after it has given the lock back. */
#include <assert.h>
#include <pthread.h>
#include <stdlib.h>

struct message { int size, sum; };

static pthread_mutex_t lock = PTHREAD_MUTEX_INITIALIZER;
static struct message *latest;

static struct message *new_message(int size) {
    struct message *m = malloc(sizeof *m);
    m->size = size;
    m->sum = 2 * size;
    return m;
}

static void *replace(void *unused) {
    struct message *fresh = new_message(5);
    pthread_mutex_lock(&lock);
    struct message *old = latest;
    latest = fresh;
    pthread_mutex_unlock(&lock);
    free(old);
    return unused;
}

static void *read_latest(void *unused) {
    pthread_mutex_lock(&lock);
    struct message *m = latest;
#ifdef MENDED
    assert(m->sum == 2 * m->size);
    pthread_mutex_unlock(&lock);
#else
    pthread_mutex_unlock(&lock);
    assert(m->sum == 2 * m->size);
#endif
    return unused;
}

int main(void) {
    pthread_t writer, reader;
    latest = new_message(3);
    pthread_create(&writer, NULL, replace, NULL);
    pthread_create(&reader, NULL, read_latest, NULL);
    pthread_join(writer, NULL);
    pthread_join(reader, NULL);
    free(latest);
    return 0;
}
