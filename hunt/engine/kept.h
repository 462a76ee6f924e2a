/* Runs that are kept as they are, and come back so after they have gone on: the last one that was kept comes back first. */
#ifndef KEPT_H
#define KEPT_H

#include "run.h"

void keep_at_most(size_t runs);
bool can_keep(void); /* one more */
void keep_run(const struct run *r);
void take_back_run(struct run *r); /* the last one that is kept; it stays so */
void drop_run(void);

#endif
