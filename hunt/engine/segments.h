/* At which shared words another thread may come. A thread's segment is what it has done since its last place. Two segments conflict
   if a thread touches a shared word that another thread has touched in its present segment, one of them with a store. Then the
   word becomes a place's word: from now on each access to it is a place. The run has news, and is nothing more to learn from:
   what comes in it might have been parted at a place. Places' words are the crew's; segments are of each one's present run. */
#ifndef SEGMENTS_H
#define SEGMENTS_H

#include "sharing.h"

enum touch { LOADS, STORES };

void start_places(uint32_t size);   /* once */
void start_segments(uint32_t size); /* for each of the crew */
void forget_segments(void); /* for a new run; the places' words stay */
void every_shared_word_is_a_place(bool all);
void make_place(uint32_t address);
/* That it was made one. */
void put_place(uint32_t address);
uint32_t place_word_count(void);
/* Grows with each word that is found to be shared, or a place's, by whomever of the crew. */
uint32_t knowledge(void);
bool has_news(void); /* of this run, or of another one of the crew since this one began */
/* Grows before anybody can see that such a word is one. So whoever finds that it is as it was has seen none of what came meanwhile. */
uint32_t changes_begun(void);
void begin_change(void);
void tell_news(void);
/* Whether runs are to be learned from, as they are unless this says otherwise. */
void learn(bool so);
bool is_learning(void);

void touch(uint32_t context, uint32_t address, enum touch how); /* a shared word */
/* The thread's next step is at a place, and begins a segment, which doesn't have it; or the step is within its segment. */
void begin_segment(uint32_t thread);
void go_on_in_segment(void);
/* Of what each thread has touched in its segment. Two runs that come to the same state with the same segments find the same
   conflicts from there on. */
struct hash segments(void);
uint64_t touch_count(void); /* grows with each touch that a segment didn't have */

/* For the two after it alone: */
extern _Atomic uint8_t *made_place;
extern bool all_places;

static inline bool is_made_place(uint32_t address) { return atomic_load_explicit(&made_place[address / 4], memory_order_acquire); }

static inline bool is_place_word(uint32_t address) { return is_made_place(address) || (all_places && is_shared(address)); }

/* The words that a thread has touched in its present segment, and the sum of their hashes. */
struct segment {
    uint32_t *words; /* addresses; STORES is added if it was stored to */
    size_t count, room;
    struct hash hash;
};

/* The segments as they are at one time. */
struct kept_segments {
    struct segment of[MOST_THREADS];
    uint32_t threads; /* of which these are */
    uint64_t touches;
};
void keep_segments(struct kept_segments *k);
void take_back_segments(const struct kept_segments *k);

#endif
