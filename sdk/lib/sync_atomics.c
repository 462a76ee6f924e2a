/* The older names of atomic operations, __sync_fetch_and_add and the like, on 1, 2 and 8 bytes. Compilers have builtins of these names, so
   they get their names here. */
#include <stdbool.h>
#include <stdint.h>

#define NAMED(name, N) __asm__("__sync_" name "_" #N)

#define OPERATION(N, T, name) \
    T __delorean_##name##_before_##N(volatile T *p, T value) NAMED("fetch_and_" #name, N); \
    T __delorean_##name##_before_##N(volatile T *p, T value) { return __atomic_fetch_##name(p, value, __ATOMIC_SEQ_CST); } \
    T __delorean_##name##_after_##N(volatile T *p, T value) NAMED(#name "_and_fetch", N); \
    T __delorean_##name##_after_##N(volatile T *p, T value) { return __atomic_##name##_fetch(p, value, __ATOMIC_SEQ_CST); }

#define EXCHANGES(N, T) \
    bool __delorean_is_swapped_##N(volatile T *p, T old, T new) NAMED("bool_compare_and_swap", N); \
    bool __delorean_is_swapped_##N(volatile T *p, T old, T new) { \
        return __atomic_compare_exchange_n(p, &old, new, false, __ATOMIC_SEQ_CST, __ATOMIC_SEQ_CST); \
    } \
    T __delorean_swapped_##N(volatile T *p, T old, T new) NAMED("val_compare_and_swap", N); \
    T __delorean_swapped_##N(volatile T *p, T old, T new) { \
        __atomic_compare_exchange_n(p, &old, new, false, __ATOMIC_SEQ_CST, __ATOMIC_SEQ_CST); \
        return old; \
    } \
    T __delorean_set_##N(volatile T *p, T value) NAMED("lock_test_and_set", N); \
    T __delorean_set_##N(volatile T *p, T value) { return __atomic_exchange_n(p, value, __ATOMIC_SEQ_CST); }

#define ALL(N, T) \
    OPERATION(N, T, add) OPERATION(N, T, sub) OPERATION(N, T, and) OPERATION(N, T, or) OPERATION(N, T, xor) OPERATION(N, T, nand) \
    EXCHANGES(N, T)

ALL(1, uint8_t)
ALL(2, uint16_t)
ALL(8, uint64_t)
