/* Single words that threads share. */
#ifndef DELOREAN_WORD_H
#define DELOREAN_WORD_H

#define LOAD(word) (*(volatile unsigned *)&(word))
#define STORE(word, value) ((void)(*(volatile unsigned *)&(word) = (value)))
#define SWAP(word, value) __atomic_exchange_n(&(word), (value), __ATOMIC_SEQ_CST)
#define ADD(word, value) __atomic_fetch_add(&(word), (value), __ATOMIC_SEQ_CST)
#define KEEP_ORDER __asm__ volatile("" ::: "memory")

/* A word is changed from what it was by LOAD_RESERVED and then STORE_CONDITIONAL, which gives 0 if nobody stored to it between. */
#define LOAD_RESERVED(word) \
    ({ unsigned was_; \
       __asm__ volatile("lr.w.aqrl %0, (%1)" : "=r"(was_) : "r"(&(word)) : "memory"); \
       was_; })
#define STORE_CONDITIONAL(word, value) \
    ({ unsigned failed_; \
       __asm__ volatile("sc.w.aqrl %0, %2, (%1)" : "=&r"(failed_) : "r"(&(word)), "r"(value) : "memory"); \
       failed_; })

/* Whoever goes without a STORE_CONDITIONAL gives up the reservation: so a wait comes back to the same state. One that fails does this: it
   is of a word of the stack, which nobody has reserved, and stores nothing. */
#define GIVE_UP_RESERVATION() \
    ({ unsigned own_; \
       __asm__ volatile("sc.w zero, zero, (%0)" : : "r"(&own_) : "memory"); })

#endif
