/* POSIX semaphores without names. */
#ifndef DELOREAN_SEMAPHORE_H
#define DELOREAN_SEMAPHORE_H

#include <delorean/missing.h>
#include <time.h>

typedef struct { unsigned value; } sem_t;
#define SEM_VALUE_MAX 0x7FFFFFFF
#define SEM_FAILED ((sem_t *)0)

int sem_init(sem_t *, int, unsigned);
int sem_destroy(sem_t *);
int sem_wait(sem_t *);
int sem_trywait(sem_t *);
int sem_timedwait(sem_t *, const struct timespec *);
int sem_clockwait(sem_t *, clockid_t, const struct timespec *);
int sem_post(sem_t *);
int sem_getvalue(sem_t *, int *);

sem_t *sem_open(const char *, int, ...) DELOREAN_MISSING("semaphores have no names, since there are no files: take sem_init");
int sem_close(sem_t *) DELOREAN_MISSING("semaphores have no names, since there are no files: take sem_init");
int sem_unlink(const char *) DELOREAN_MISSING("semaphores have no names, since there are no files: take sem_init");

#endif
