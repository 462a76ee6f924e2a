/* Atomic operations on bytes and halves, which compilers call: the processor has those of words alone. Each is done on the word around. */
#include "word.h"

#include <stdbool.h>
#include <stdint.h>

#pragma GCC diagnostic ignored "-Wbuiltin-declaration-mismatch"

static volatile unsigned *word_of(const volatile void *p) { return (volatile unsigned *)((uintptr_t)p & ~(uintptr_t)3); }
static unsigned shift_of(const volatile void *p) { return ((unsigned)(uintptr_t)p & 3) * 8; }
static unsigned laid(unsigned word, unsigned shift, unsigned mask, unsigned value) {
    return (word & ~(mask << shift)) | (value & mask) << shift;
}

/* The operation gives the new value of what was `x`. */
#define CHANGE(T, p, operation) \
    ({ \
        volatile unsigned *w = word_of(p); \
        unsigned shift = shift_of(p), word; \
        T x; \
        do { \
            word = LOAD_RESERVED(*w); \
            x = (T)(word >> shift); \
        } while (STORE_CONDITIONAL(*w, laid(word, shift, (T)-1, (unsigned)(operation)))); \
        x; \
    })

#define FETCH(N, T, name, operation) \
    T __atomic_fetch_##name##_##N(volatile void *p, T value, int order) { (void)order; return CHANGE(T, p, operation); }

#define OPERATIONS(N, T) \
    T __atomic_exchange_##N(volatile void *p, T value, int order) { (void)order; return CHANGE(T, p, value); } \
    FETCH(N, T, add, x + value) \
    FETCH(N, T, sub, x - value) \
    FETCH(N, T, and, x & value) \
    FETCH(N, T, or, x | value) \
    FETCH(N, T, xor, x ^ value) \
    FETCH(N, T, nand, ~(x & value)) \
    bool __atomic_compare_exchange_##N(volatile void *p, void *expected, T value, bool weak, int success, int failure) { \
        (void)weak, (void)success, (void)failure; \
        volatile unsigned *w = word_of(p); \
        unsigned shift = shift_of(p), word; \
        do { \
            word = LOAD_RESERVED(*w); \
            if ((T)(word >> shift) != *(T *)expected) { \
                GIVE_UP_RESERVATION(); \
                *(T *)expected = (T)(word >> shift); \
                return false; \
            } \
        } while (STORE_CONDITIONAL(*w, laid(word, shift, (T)-1, value))); \
        return true; \
    }

OPERATIONS(1, uint8_t)
OPERATIONS(2, uint16_t)
