/* Three threads take two locks each, and the three orders are a circle. The bug is in line 34: the third one takes its locks in
   an order that doesn't go with the others'. */
#include <pthread.h>

static pthread_mutex_t a = PTHREAD_MUTEX_INITIALIZER, b = PTHREAD_MUTEX_INITIALIZER, c = PTHREAD_MUTEX_INITIALIZER;
static int from_a, from_b, from_c;

static void *one(void *unused) {
    pthread_mutex_lock(&a);
    pthread_mutex_lock(&b);
    from_a++;
    from_b++;
    pthread_mutex_unlock(&b);
    pthread_mutex_unlock(&a);
    return unused;
}

static void *two(void *unused) {
    pthread_mutex_lock(&b);
    pthread_mutex_lock(&c);
    from_b++;
    from_c++;
    pthread_mutex_unlock(&c);
    pthread_mutex_unlock(&b);
    return unused;
}

static void *three(void *unused) {
#ifdef MENDED
    pthread_mutex_lock(&a);
    pthread_mutex_lock(&c);
#else
    pthread_mutex_lock(&c);
    pthread_mutex_lock(&a);
#endif
    from_c++;
    from_a++;
    pthread_mutex_unlock(&a);
    pthread_mutex_unlock(&c);
    return unused;
}

int main(void) {
    pthread_t threads[3];
    pthread_create(&threads[0], NULL, one, NULL);
    pthread_create(&threads[1], NULL, two, NULL);
    pthread_create(&threads[2], NULL, three, NULL);
    for (int j = 0; j < 3; j++)
        pthread_join(threads[j], NULL);
    return from_a + from_b + from_c == 6 ? 0 : 1;
}
