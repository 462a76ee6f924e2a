/* sched_yield; threads have no priorities. */
#ifndef DELOREAN_SCHED_H
#define DELOREAN_SCHED_H
#include <sys/types.h>
#include <sys/sched.h>
int sched_yield(void);
typedef struct { unsigned long bits; } cpu_set_t; /* of pthread_setaffinity_np, which isn't there */
#define CPU_ZERO(set) ((set)->bits = 0)
#define CPU_SET(number, set) ((set)->bits |= 1UL << (number))
#endif
