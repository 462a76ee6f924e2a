/* Two threads close the same connection, and each frees its buffer. The bug is in line 16: whether it was closed is looked at
   and noted in two steps, so both may free. */
#include <pthread.h>
#include <stdatomic.h>
#include <stdlib.h>

struct connection { char *buffer; atomic_int is_closed; };

static struct connection connection;

static void close_connection(struct connection *c) {
#ifdef MENDED
    if (atomic_exchange(&c->is_closed, 1) == 0)
        free(c->buffer);
#else
    if (!atomic_load(&c->is_closed)) {
        atomic_store(&c->is_closed, 1);
        free(c->buffer);
    }
#endif
}

static void *peer(void *unused) {
    close_connection(&connection);
    return unused;
}

int main(void) {
    pthread_t a, b;
    connection.buffer = malloc(16);
    pthread_create(&a, NULL, peer, NULL);
    pthread_create(&b, NULL, peer, NULL);
    pthread_join(a, NULL);
    pthread_join(b, NULL);
    return 0;
}
