/* The two instructions of a lock, each with a mark for the search: the sections .delorean.acquires and .delorean.releases, which aren't
   loaded, hold their addresses. If a marked acquire finds the lock held, the program only looks and tries again until one succeeds. */
#ifndef DELOREAN_LOCK_H
#define DELOREAN_LOCK_H

/* Makes the word 1, and gives what it was: 0 if the lock was free, and now is taken. */
#define DELOREAN_TAKE(word) \
    __extension__({ \
        unsigned got_ = 1; \
        __asm__ volatile("1: amoswap.w.aqrl %0, %0, (%1)\n" \
                         " .pushsection .delorean.acquires,\"\",@progbits\n .word 1b\n .popsection" \
                         : "+&r"(got_) : "r"(&(word)) : "memory"); \
        got_; \
    })

/* Makes the word 0. An exchange, so that a trace shows what it gave back. */
#define DELOREAN_GIVE(word) \
    __asm__ volatile("1: amoswap.w.aqrl zero, zero, (%0)\n" \
                     " .pushsection .delorean.releases,\"\",@progbits\n .word 1b\n .popsection" \
                     : : "r"(&(word)) : "memory")

#endif
