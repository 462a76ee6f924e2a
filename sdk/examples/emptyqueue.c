/* A queue with a lock for its head and one for its tail (Michael and Scott's, without its first dummy). The bug is in line 32:
   the taker of the last node sets the tail back without the tail's lock, while another thread appends to that node. */
#include <assert.h>
#include <pthread.h>
#include <stddef.h>

struct node { struct node *volatile next; };

static pthread_mutex_t head_lock = PTHREAD_MUTEX_INITIALIZER, tail_lock = PTHREAD_MUTEX_INITIALIZER;
static struct node nodes[2], *volatile head = &nodes[0], *volatile tail = &nodes[0];

static void *put(void *unused) {
    pthread_mutex_lock(&tail_lock);
    struct node *last = tail;
    if (last)
        last->next = &nodes[1];
    else
        head = &nodes[1];
    tail = &nodes[1];
    pthread_mutex_unlock(&tail_lock);
    return unused;
}

static void *take(void *unused) {
#ifdef MENDED
    pthread_mutex_lock(&tail_lock);
#endif
    pthread_mutex_lock(&head_lock);
    struct node *first = head;
    head = first->next;
    if (head == NULL)
        tail = NULL;
    pthread_mutex_unlock(&head_lock);
#ifdef MENDED
    pthread_mutex_unlock(&tail_lock);
#endif
    return unused;
}

int main(void) {
    pthread_t a, b;
    pthread_create(&a, NULL, put, NULL);
    pthread_create(&b, NULL, take, NULL);
    pthread_join(a, NULL);
    pthread_join(b, NULL);
    assert(head == &nodes[1] && tail == &nodes[1]);
    return 0;
}
