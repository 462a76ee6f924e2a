/* Attributes of threads: whether one is detached, and the size of its stack, which delorean-cc gives. */
#include "block.h"

#include <errno.h>

int pthread_attr_init(pthread_attr_t *a) {
    *a = (pthread_attr_t){PTHREAD_CREATE_JOINABLE, __numbers.stack_size};
    return 0;
}

int pthread_attr_destroy(pthread_attr_t *a) { (void)a; return 0; }
int pthread_attr_setdetachstate(pthread_attr_t *a, int detached) { a->detached = (unsigned)detached; return 0; }
int pthread_attr_getdetachstate(const pthread_attr_t *a, int *detached) { *detached = (int)a->detached; return 0; }

int pthread_attr_setstacksize(pthread_attr_t *a, size_t size) {
    if (size > __numbers.stack_size)
        return EINVAL;
    a->stack = size;
    return 0;
}

int pthread_attr_getstacksize(const pthread_attr_t *a, size_t *size) { *size = a->stack; return 0; }
