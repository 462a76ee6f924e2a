/* A list to which two threads add nodes without a lock. The bug is in line 19. */
#include <pthread.h>
#include <stdlib.h>

struct node { struct node *next; short kind, mark; int value; struct { int low, high; } range[2]; };
struct marked { void *link; short kind, its_mark; };
static struct node *head;
static pthread_mutex_t lock = PTHREAD_MUTEX_INITIALIZER;

static void *adds(void *value) {
    struct node *n = malloc(sizeof *n);
    n->kind = 3;
    n->mark = 0;
    n->value = *(int *)value;
    n->range[1].high = 7;
#ifdef MENDED
    pthread_mutex_lock(&lock);
#endif
    n->next = head;
    head = n;
#ifdef MENDED
    pthread_mutex_unlock(&lock);
#endif
    return NULL;
}

__attribute__((noinline)) static void marks(struct marked *m) {
    m->its_mark = m->kind;
}

int main(void) {
    pthread_t a, b;
    int one = 1, two = 2, sum = 0;
    char *text = malloc(sizeof(struct node));
    text[0] = 0;
    free(text);
    struct node *first = malloc(sizeof *first);
    first->next = NULL;
    first->value = 4;
    head = first;
    pthread_create(&a, NULL, adds, &one);
    pthread_create(&b, NULL, adds, &two);
    pthread_join(a, NULL);
    pthread_join(b, NULL);
    for (struct node *n = head; n; n = n->next) {
        marks((struct marked *)n);
        sum += n->value;
    }
    return sum != 7;
}
