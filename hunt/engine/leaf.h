/* A leaf of the tree of runs: a state in which no thread is enabled. */
#ifndef LEAF_H
#define LEAF_H

#include "run.h"

/* All have ended, all wait, or the state comes again in turns. */
enum leaf { ALL_ENDED, ALL_WAIT, COMES_AGAIN };
enum leaf leaf_of(struct run *r);
/* A run of the search has come to a leaf, which is counted: whether it ends badly. If it does, the run is at the end that a walk shows. */
bool leaf_is_bad(struct run *run);

#endif
