/* An atomic counter of C11. The bug is in line 14: it is loaded and stored in two steps, so what another thread adds between is
   lost. */
#include <assert.h>
#include <stdatomic.h>
#include <threads.h>

static atomic_int count;

static int work(void *p) {
    for (int j = 0; j < 3; j++)
#ifdef MENDED
        atomic_fetch_add(&count, 1);
#else
        atomic_store(&count, atomic_load(&count) + 1);
#endif
    return *(int *)p;
}

int main(void) {
    thrd_t t[2];
    int n[2] = {3, 4}, r[2];
    for (int j = 0; j < 2; j++)
        thrd_create(&t[j], work, &n[j]);
    for (int j = 0; j < 2; j++)
        thrd_join(t[j], &r[j]);
    assert(r[0] + r[1] == 7);
    assert(count == 6);
    return 0;
}
