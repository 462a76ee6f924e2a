/* A value is kept beside its source, with the version of the source that it was made of. The bug is in line 16: the version is
   looked at after the value was made, so an old value may be kept with a new version, and is never made again. */
#include <assert.h>
#include <pthread.h>
#include <stdatomic.h>

static atomic_int source = 1, version = 1;
static atomic_int cached, cached_version;

static void fill_cache(void) {
#ifdef MENDED
    int now = atomic_load(&version);
    atomic_store(&cached, 10 * atomic_load(&source));
#else
    atomic_store(&cached, 10 * atomic_load(&source));
    int now = atomic_load(&version);
#endif
    atomic_store(&cached_version, now);
}

static int get(void) {
    if (atomic_load(&cached_version) != atomic_load(&version))
        fill_cache();
    return atomic_load(&cached);
}

static void *reader(void *unused) {
    get();
    return unused;
}

static void *change(void *unused) {
    atomic_store(&source, 2);
    atomic_fetch_add(&version, 1);
    return unused;
}

int main(void) {
    pthread_t a, b;
    pthread_create(&a, NULL, reader, NULL);
    pthread_create(&b, NULL, change, NULL);
    pthread_join(a, NULL);
    pthread_join(b, NULL);
    assert(get() == 20);
    return 0;
}
