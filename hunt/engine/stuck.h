/* How a run ends that goes on no more, or only round and round. */
#ifndef STUCK_H
#define STUCK_H

#include "condition.h"
#include "run.h"

/* At a leaf: whether the run ends badly. A thread is stuck if no thread goes on, or if the state comes again and a long run from
   here, in which each thread comes again and again, doesn't end it. */
bool ends_badly(struct run *r, const struct condition *bad);

#endif
