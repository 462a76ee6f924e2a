/* Which words are shared: those that two of the threads, handlers and DMAs have touched, in whatever runs, one of them with a
   store; and words of code that were stored to. A word that was found so stays so. The whole crew shares what is known here. */
#ifndef SHARING_H
#define SHARING_H

#include "machine.h"

#include <stdatomic.h>

/* Who touches a word: a thread, its handler, which is another beside its thread, or a DMA. */
enum { IN_HANDLER = 64, BY_DMA = 127 };

void start_sharing(uint32_t size);
void always_share(uint32_t address); /* counts as shared from the start */
uint32_t shared_count(void);
void note_load(uint32_t context, uint32_t address);
void note_store(uint32_t context, uint32_t address);
void note_fetched(uint32_t address); /* a word's first fetch of all */
/* All that is known of a word, as a number, which is 0 of one that nobody has touched. */
uint32_t toucher_word(uint32_t address);
void put_toucher_word(uint32_t address, uint32_t word);

/* Of a word, in all runs together. NOBODY, MANY, or a context and 1. It changes as a whole, so whoever of the crew changes it last
   sees all that the others have. */
enum { NOBODY = 0, MANY = 255 };
struct touchers {
    uint8_t loader, storer;
    bool shared, fetched;
};
extern struct touchers _Atomic *touchers;

static inline struct touchers touchers_of(uint32_t address) {
    return atomic_load_explicit(&touchers[address / 4], memory_order_acquire);
}

static inline uint32_t context_of(const struct machine *m, uint32_t thread) {
    return thread + (m->threads[thread].masked ? IN_HANDLER : 0);
}

/* Whether such an access brings nothing new of a word that isn't shared. */
static inline bool is_known_load(struct touchers t, uint32_t context) {
    bool mine = t.loader == context + 1 && (t.storer == NOBODY || t.storer == context + 1);
    return !t.shared && (mine || (t.loader == MANY && t.storer == NOBODY));
}

static inline bool is_known_store(struct touchers t, uint32_t context) {
    return !t.shared && !t.fetched && t.storer == context + 1 && (t.loader == NOBODY || t.loader == context + 1);
}

static inline bool is_shared(uint32_t address) { return touchers_of(address).shared; }

#endif
