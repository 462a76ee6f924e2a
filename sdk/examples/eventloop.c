/* An event loop sleeps on a pipe until a byte comes, and then does what is posted. The bug is in line 46: it looks at the posts
   before it empties the pipe, so the byte of a post that comes between is thrown away, and the loop sleeps with work to do. */
#include <pthread.h>

static pthread_mutex_t lock = PTHREAD_MUTEX_INITIALIZER;
static pthread_cond_t readable = PTHREAD_COND_INITIALIZER;
static int bytes;
static volatile int posted;

static void put_byte(void) {
    pthread_mutex_lock(&lock);
    bytes++;
    pthread_cond_signal(&readable);
    pthread_mutex_unlock(&lock);
}

static void sleep_on_pipe(void) {
    pthread_mutex_lock(&lock);
    while (bytes == 0)
        pthread_cond_wait(&readable, &lock);
    pthread_mutex_unlock(&lock);
}

static void empty_pipe(void) {
    pthread_mutex_lock(&lock);
    bytes = 0;
    pthread_mutex_unlock(&lock);
}

static void *post(void *unused) {
    for (int j = 0; j < 2; j++) {
        __atomic_fetch_add(&posted, 1, __ATOMIC_SEQ_CST);
        put_byte();
    }
    return unused;
}

static void *loop(void *unused) {
    int done = 0;
    while (done < 2) {
        sleep_on_pipe();
#ifdef MENDED
        empty_pipe();
        done = posted;
#else
        done = posted;
        empty_pipe();
#endif
    }
    return unused;
}

int main(void) {
    pthread_t a, b;
    pthread_create(&a, NULL, post, NULL);
    pthread_create(&b, NULL, loop, NULL);
    pthread_join(a, NULL);
    pthread_join(b, NULL);
    return 0;
}
