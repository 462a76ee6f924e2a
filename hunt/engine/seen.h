/* The states that were met, by 119 bits of their hashes, each with the fewest forced switches that led to it. The whole crew
   shares them. */
#ifndef SEEN_H
#define SEEN_H

#include "machine.h"

void start_seen(uint64_t most);
void forget_seen(void);
void drop_former_tables(void); /* which nobody looks at any more, since all of the crew have come back */
/* It is going to be asked for the state, which may be far away in memory. */
void look_ahead(struct hash state);
/* Whether the state wasn't met yet with so few; from now on it was, and whoever asked goes on from it. */
bool is_new(struct hash state, uint32_t cost);
/* The same of a state within a turn. Until its turn has come to its end, or to a state from which another turn has, the state is
   no reason to stop at it. */
enum meeting { IS_FIRST, IS_GOING_ON, IS_KNOWN };
enum meeting meet(struct hash state, uint32_t cost);
void turn_has_ended(struct hash state);
uint64_t seen_count(void);
bool seen_is_full(void);
/* All states, one after another, as they are kept. No turn goes on. */
void each_seen(void (*see)(struct hash entry));
void put_seen(struct hash entry);

#endif
