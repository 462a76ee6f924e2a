/* A trial: a run goes on from where an item parts, and all that parts from it for nothing is tried too. */
#ifndef TRIAL_H
#define TRIAL_H

#include "items.h"
#include "run.h"

/* Of a run, or of some: IS_OVER if the search has to look up, since a limit is met or the run has news. */
enum result { GOES_ON, IS_DONE, IS_OVER, IS_BAD };

/* These items, by this run, which begins anew. */
enum result try_some(struct run *run, const struct list *some);

#endif
