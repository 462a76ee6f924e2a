/* The turns of a run as a log and an account, as texts. */
#ifndef EMIT_H
#define EMIT_H

#include "run.h"

/* Does the turns once more from the start, and prints the parts of the log, as `inspect` prints them, and the account. A turn
   that ends in waiting is cut to its first step at which the thread waits. */
void emit(struct run *r, const struct turn *turns, size_t count);
/* Then, of each thread that is live, the commits with which it comes back to this state. */
void emit_loops(struct run *r);

#endif
