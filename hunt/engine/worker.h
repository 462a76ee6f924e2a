/* What each of the crew does: it takes of the work that is left, until nothing is, or all are to come back. */
#ifndef WORKER_H
#define WORKER_H

void work(void);

#endif
