/* A text is appended to another one, and each has a lock. The bug is in line 26: the length is asked for in one locked region
   and the letters are copied in another, and the text may have become shorter between (StringBuffer of Java 1.4). */
#include <assert.h>
#include <pthread.h>

enum { ROOM = 4 };

struct text { pthread_mutex_t lock; int length; char letters[ROOM]; };

static struct text source = {PTHREAD_MUTEX_INITIALIZER, 3, "abc"}, target = {.lock = PTHREAD_MUTEX_INITIALIZER};

static void copy(struct text *from, int length, char *to) {
    assert(length <= from->length);
    for (int j = 0; j < length; j++)
        to[j] = from->letters[j];
}

static void *append(void *unused) {
#ifdef MENDED
    pthread_mutex_lock(&source.lock);
    copy(&source, source.length, target.letters);
    pthread_mutex_unlock(&source.lock);
#else
    pthread_mutex_lock(&source.lock);
    int length = source.length;
    pthread_mutex_unlock(&source.lock);
    pthread_mutex_lock(&source.lock);
    copy(&source, length, target.letters);
    pthread_mutex_unlock(&source.lock);
#endif
    return unused;
}

static void *clear(void *unused) {
    pthread_mutex_lock(&source.lock);
    source.length = 0;
    pthread_mutex_unlock(&source.lock);
    return unused;
}

int main(void) {
    pthread_t a, b;
    pthread_create(&a, NULL, append, NULL);
    pthread_create(&b, NULL, clear, NULL);
    pthread_join(a, NULL);
    pthread_join(b, NULL);
    return 0;
}
