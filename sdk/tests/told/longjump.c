/* An error leaves a function by longjmp, with the lock held. The bug is in line 16. */
#include <pthread.h>
#include <setjmp.h>

static pthread_mutex_t lock = PTHREAD_MUTEX_INITIALIZER;
static int left = 1;

static void take(jmp_buf out) {
    pthread_mutex_lock(&lock);
    int is_empty = left == 0;
    if (!is_empty)
        left--;
    if (is_empty) {
#ifdef MENDED
        pthread_mutex_unlock(&lock);
#endif
        longjmp(out, 1);
    }
    pthread_mutex_unlock(&lock);
}

static void *work(void *unused) {
    jmp_buf out;
    if (setjmp(out) == 0)
        take(out);
    return unused;
}

int main(void) {
    pthread_t t[2];
    for (int i = 0; i < 2; i++)
        pthread_create(&t[i], NULL, work, NULL);
    pthread_mutex_lock(&lock);
    left++;
    pthread_mutex_unlock(&lock);
    for (int i = 0; i < 2; i++)
        pthread_join(t[i], NULL);
    return 0;
}
