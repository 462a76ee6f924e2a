/* Three threads change a number. The bug is in line 25: two of them take another lock than the third. */
#include <assert.h>
#include <pthread.h>

static pthread_mutex_t data_lock = PTHREAD_MUTEX_INITIALIZER, other_lock = PTHREAD_MUTEX_INITIALIZER;
static int data;

static void *by_data_lock(void *p) {
    (void)p;
    pthread_mutex_lock(&data_lock);
    int x = data;
    data++;
    assert(data == x + 1);
    pthread_mutex_unlock(&data_lock);
    return NULL;
}

static void *by_other_lock(void *p) {
    (void)p;
#ifdef MENDED
    pthread_mutex_t *l = &data_lock;
#else
    pthread_mutex_t *l = &other_lock;
#endif
    pthread_mutex_lock(l);
    data++;
    pthread_mutex_unlock(l);
    return NULL;
}

int main(void) {
    pthread_t t[3];
    (void)other_lock;
    pthread_create(&t[0], NULL, by_data_lock, NULL);
    pthread_create(&t[1], NULL, by_other_lock, NULL);
    pthread_create(&t[2], NULL, by_other_lock, NULL);
    for (int j = 0; j < 3; j++)
        pthread_join(t[j], NULL);
    assert(data == 3);
    return 0;
}
