/* By which a search knows a state again, and those that the present turn was the first to meet. */
#ifndef KEYS_H
#define KEYS_H

#include "run.h"

enum key { AT_PLACE_KEY, COMING, AFTER_CUT, GOING_ON };

/* Of the state with this thread to go on: at a place, or about to come. */
struct hash key_of(struct hash state, uint32_t thread, enum key how);
/* With what each thread has touched in its segment, so that the conflicts that can come are the same too. */
struct hash whole_state(struct run *run);
/* The state after the current thread's chunk has ended. */
struct hash state_after_chunk(struct run *run);

/* The present turn was the first to meet this state, since the path's end. */
void keep_key(struct hash key);
/* Whether the present turn was the first in this state: then the thread is in a loop, and will be seen to wait. */
bool is_in_turn(struct hash key);
void forget_turn(void);
/* The turn has come to its end, or to where another one has gone on to its end. Only now nobody else need go on from its states. */
void close_turn(void);

#endif
