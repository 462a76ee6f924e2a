/* The loops in which threads were seen to wait: alone, a thread comes back to each of a loop's states, until a word that the loop
   looks at changes. So what is kept of a state is those words, with their values, be they shared or the thread's own; and the whole
   memory, if the loop changes words, looks at many, or asks devices. Kernel calls see whether other threads have ended, how many
   there are, and whether a request is outstanding; so that is kept of any. */
#ifndef LOOPS_H
#define LOOPS_H

#include "machine.h"

enum { LOOKED_AT = 8 };
struct looks {
    bool at_all; /* or at the words of these addresses */
    uint32_t count, address[LOOKED_AT];
};

/* At one place: the loop has only one at which it can be left. Around: it has several, and changes nothing. */
enum waiting { IS_UNKNOWN, WAITS_AT_ONE_PLACE, WAITS_AROUND, WAITS_WITH_STORES };

struct loop {
    struct looks looks;
    enum waiting how;
    uint32_t known; /* the knowledge when its places were counted */
};

/* That a thread of this hash waits. What it may see by kernel calls, and the hashes of what it looks at and of all that it could look at,
   are as they were then. */
struct fact {
    struct hash thread, sight, words, all;
    struct loop loop;
};

void look_at(struct looks *l, uint32_t address);
/* From now on it is known that a thread of this hash waits while memory is as it is. */
void keep_waiting(struct hash thread, const struct loop *loop, const struct machine *m);
enum waiting how_waits(struct hash thread, const struct machine *m);
/* What one of the crew has found out the others know from then on. So if several come to where all threads wait, each having seen
   another one wait, the last of them knows it of all. */
void tell_facts(bool so); /* or only keep them; a crew of one need not tell */
void drop_old_facts(void);
size_t fact_count(void);
struct fact fact_of(size_t number);
void put_fact(const struct fact *fact);

#endif
