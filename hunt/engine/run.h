/* A run in progress: whose turn it is, and the turns so far. A turn is what one thread does until another actor
   comes; in the log that is written of it, it is a commit for each chunk and serial step. */
#ifndef RUN_H
#define RUN_H

#include "condition.h"
#include "loops.h"
#include "machine.h"
#include "stacks.h"

enum { CUT = 126, DMA = 127, RAISE = 128, NO_ONE = 255 }; /* actors beside threads; RAISE and a number: that interrupt */
enum { MOST_RAISES = 64 };

struct raise { uint32_t thread, value; };

/* A turn's end: another actor came though the thread could go on; it ended; it waits; or it had its steps. */
enum turn_end { FORCED, STOPPED, WAITS, SPENT };

struct turn {
    uint8_t actor;
    enum turn_end end;
    uint64_t steps;
    struct hash target; /* of a turn that ends in waiting: the state in which it waits */
    uint32_t target_pc; /* its thread's there */
    uint32_t value;     /* of an interrupt; its thread is in steps */
};

struct run {
    bool all_places;  /* each access to a shared word is a place */
    bool minds_marks; /* a thread before a marked instruction whose lock is held waits */
    const struct condition *watched; /* words that must never be so are looked at after each store; or NULL */
    struct stacks stacks;            /* likewise, of each thread: it mustn't come below its own; tp 0 if that isn't asked */
    bool met;                        /* it was so, and the run is at its end */
    struct raise raises[MOST_RAISES];
    uint32_t raise_count;
    uint64_t raised; /* which of them have come, as bits */
    struct hash seats[MOST_THREADS]; /* hashes of the threads, as they were left; 0 if it isn't known */
    uint32_t current; /* or NO_ONE */
    struct turn *turns;
    size_t turn_count, turn_room;
    uint64_t turn_limit, step_limit;
    uint64_t spent_at; /* the steps of the present turn after which others may come for nothing */
    /* Where the present turn is looked at for a state that comes again: after 1, 2, 4, .. steps. */
    struct thread mark;
    struct hash mark_memory;
    uint64_t mark_stores, mark_events, mark_power, mark_age, mark_reservation_age;
    /* The hash of all that the present turn leaves alone, as long as there is no further event. */
    struct hash still;
    uint64_t still_events;
    size_t still_turn;
    struct machine machine; /* last, as its threads are in it */
};

/* What a thread came to: a place, where it is about to touch what others see; a point between places at which an interrupt may come
   to it, since its handler sees the registers; or its turn's end. */
enum stop { AT_PLACE, AT_INTERRUPTIBLE, AT_STOP, AT_WAIT, AT_SPENT, AT_LIMIT };

void start_run(struct run *r);
/* Whether it is bad, whatever comes. */
bool is_bad_already(const struct run *r, const struct condition *bad);
void begin_turn(struct run *r, uint32_t actor);
void end_turn(struct run *r, enum turn_end end);
/* The current thread goes on to its next place or such a point; past the one where it is, if `past`. */
enum stop go_on(struct run *r, bool past);
/* The current thread goes on for so many steps at most. */
enum stop go_steps(struct run *r, uint64_t steps);
/* The current thread does so many steps, also if it waits meanwhile. */
enum stop go_exactly(struct run *r, uint64_t steps);
/* A thread at a marked instruction whose lock is held is blocked: it waits, without having done it. */
bool some_are_blocked(struct run *r);
/* No thread goes on. Those that are blocked go on to the loops in which they wait. */
void try_locks(struct run *r);
enum waiting waiting_of(struct run *r, uint32_t thread);
/* Whether the thread is live, and not known to wait. */
bool is_enabled(struct run *r, uint32_t thread);
/* Whether the current thread is at an SC that would succeed, so that it matters whether its chunk ends before. */
bool is_at_sure_sc(struct run *r);
bool can_raise(const struct run *r, uint32_t number);
void do_dma(struct run *r);
void do_raise(struct run *r, uint32_t number);
struct hash state_of(struct run *r);
uint32_t live_count(const struct run *r);

#endif
