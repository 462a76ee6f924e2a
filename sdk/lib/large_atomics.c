/* Atomic operations on eight bytes and on larger structs, which compilers call: done under one lock, since the processor has those of
   words alone. */
#include "wait.h"

#include <stdbool.h>
#include <stdint.h>
#include <string.h>

#pragma GCC diagnostic ignored "-Wbuiltin-declaration-mismatch"

static unsigned taken;

static void lock(void) {
    while (DELOREAN_TAKE(taken))
        WAIT_WHILE(LOAD(taken));
}

static void unlock(void) { DELOREAN_GIVE(taken); }

/* The operation gives the new value of what was `x`. */
#define CHANGE(p, operation) \
    ({ \
        volatile uint64_t *eight = (volatile uint64_t *)(p); \
        lock(); \
        uint64_t x = *eight; \
        *eight = (operation); \
        unlock(); \
        x; \
    })

#define FETCH(name, operation) \
    uint64_t __atomic_fetch_##name##_8(volatile void *p, uint64_t value, int order) { (void)order; return CHANGE(p, operation); }

FETCH(add, x + value)
FETCH(sub, x - value)
FETCH(and, x & value)
FETCH(or, x | value)
FETCH(xor, x ^ value)
FETCH(nand, ~(x & value))
uint64_t __atomic_exchange_8(volatile void *p, uint64_t value, int order) { (void)order; return CHANGE(p, value); }
void __atomic_store_8(volatile void *p, uint64_t value, int order) { (void)order; (void)CHANGE(p, value); }

uint64_t __atomic_load_8(const volatile void *p, int order) {
    (void)order;
    lock();
    uint64_t x = *(const volatile uint64_t *)p;
    unlock();
    return x;
}

bool __atomic_compare_exchange_8(volatile void *p, void *expected, uint64_t value, bool weak, int success, int failure) {
    (void)weak, (void)success, (void)failure;
    lock();
    uint64_t x = *(volatile uint64_t *)p;
    bool same = x == *(uint64_t *)expected;
    if (same)
        *(volatile uint64_t *)p = value;
    unlock();
    if (!same)
        *(uint64_t *)expected = x;
    return same;
}

/* ---- of any size. clang has builtins of these names, so they get their names here. */

void __delorean_load(size_t, const void *, void *, int) __asm__("__atomic_load");
void __delorean_store(size_t, void *, const void *, int) __asm__("__atomic_store");
void __delorean_exchange(size_t, void *, const void *, void *, int) __asm__("__atomic_exchange");
bool __delorean_compare_exchange(size_t, void *, void *, const void *, int, int) __asm__("__atomic_compare_exchange");

void __delorean_load(size_t size, const void *p, void *to, int order) {
    (void)order;
    lock();
    memcpy(to, p, size);
    unlock();
}

void __delorean_store(size_t size, void *p, const void *value, int order) {
    (void)order;
    lock();
    memcpy(p, value, size);
    unlock();
}

void __delorean_exchange(size_t size, void *p, const void *value, void *old, int order) {
    (void)order;
    lock();
    memcpy(old, p, size);
    memcpy(p, value, size);
    unlock();
}

bool __delorean_compare_exchange(size_t size, void *p, void *expected, const void *value, int success, int failure) {
    (void)success, (void)failure;
    lock();
    bool same = memcmp(p, expected, size) == 0;
    memcpy(same ? p : expected, same ? value : p, size);
    unlock();
    return same;
}
