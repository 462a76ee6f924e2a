/* malloc and its family. Blocks have sizes of classes. A freed block goes to the list of the thread that frees it, and the last freed is
   given out first, as in other libraries. Each thread takes fresh room from a part of the heap that is its own, so addresses don't depend
   on the order of threads; if that is used up, from a common part, by one atomic addition.

   After the bytes that were asked for comes a guard, and what is freed is filled with words that are no addresses. Both are looked at when
   the block is freed or given out again, and when the program ends. With delorean-cc --keep-freed no block is given out again, so
   whatever is stored to a freed one is still there when the program ends. */
#include "program.h"
#include "wait.h"

#include <errno.h>
#include <malloc.h>
#include <stdlib.h>
#include <string.h>

struct heap_block {
    unsigned size;                 /* that was asked for; of a freed block, the next freed one's address */
    unsigned state;                /* GIVEN, FREED or ALIGNED, with the class in the low bits */
};

enum { HEAD = 8, LEAST_GUARD = 4, MOST_GUARD = 16, SMALL = 8, CLASS_BITS = 12, MOST_LOOKED_AT = 64 };
#define GIVEN 0xA110C000u
#define FREED 0xF2EED000u
#define ALIGNED 0xA119E000u
#define POISON 0xDEADBEE1u
#define GUARD 0xA5u
#define LARGEST 0x3C0000u          /* what is larger is refused with ENOMEM; what is smaller and has no room ends the program */

extern char __heap[], __heap_end[];
extern unsigned __next_slot;
extern const unsigned __keep_freed;
int __is_over(struct thread *);
static unsigned common_taken;

/* ---- classes: 16 to 2,048 bytes by powers of two, and then by multiples of 1,024 */

static unsigned class_of(unsigned size) {
    unsigned needed = size + HEAD + LEAST_GUARD, c = 0;
    if (needed > 2048)
        return SMALL - 2 + (needed + 1023) / 1024;
    while (16u << c < needed)
        c++;
    return c;
}

static unsigned room_of(unsigned c) { return c < SMALL ? 16u << c : (c - (SMALL - 2)) * 1024; }
static unsigned state_class(const struct heap_block *b) { return b->state & ((1u << CLASS_BITS) - 1); }
static unsigned state_kind(const struct heap_block *b) { return b->state & ~((1u << CLASS_BITS) - 1); }
static unsigned list_of(unsigned c) { return c < BLOCK_CLASSES ? c : BLOCK_CLASSES - 1; }
static char *bytes_of(struct heap_block *b) { return (char *)b + HEAD; }
static struct heap_block *block_of(void *p) { return (struct heap_block *)((char *)p - HEAD); }

/* ---- the checks */

_Noreturn static void complain(const char *what, const void *where) {
    static const char digits[] = "0123456789ABCDEF";
    char address[11] = "0x";
    for (unsigned j = 0; j < 8; j++)
        address[2 + j] = digits[(unsigned)(uintptr_t)where >> (28 - 4 * j) & 15];
    address[10] = 0;
    __fail(what, address);
}

static unsigned guard_length(unsigned size, unsigned c) {
    unsigned left = room_of(c) - HEAD - size;
    return left < MOST_GUARD ? left : MOST_GUARD;
}

static void set_guard(struct heap_block *b) {
    unsigned length = guard_length(b->size, state_class(b));
    for (char *at = bytes_of(b) + b->size, *end = at + length; at < end; at++)
        *at = (char)GUARD;
}

static void check_guard(struct heap_block *b) {
    unsigned length = guard_length(b->size, state_class(b));
    for (unsigned char *at = (unsigned char *)bytes_of(b) + b->size, *end = at + length; at < end; at++)
        if (*at != GUARD)
            complain("malloc: written past the end of the block at ", bytes_of(b));
}

/* The words of a freed block that are filled. */
static unsigned filled(struct heap_block *b) {
    unsigned words = (room_of(state_class(b)) - HEAD) / 4;
    return words < MOST_LOOKED_AT ? words : MOST_LOOKED_AT;
}

static void poison(struct heap_block *b) {
    unsigned *words = (unsigned *)bytes_of(b);
    for (unsigned j = filled(b); j > 0; j--)
        words[j - 1] = POISON;
}

static void check_poison(struct heap_block *b) {
    unsigned *words = (unsigned *)bytes_of(b);
    for (unsigned j = filled(b); j > 0; j--)
        if (words[j - 1] != POISON)
            complain("malloc: written after it was freed: the block at ", bytes_of(b));
}

/* ---- taking */

static struct heap_block *next_freed(const struct heap_block *b) { return (struct heap_block *)(uintptr_t)b->size; }

static struct heap_block *freed_before(unsigned c) {
    struct heap_block **link = &me()->freed[list_of(c)], *b = *link, *last = NULL;
    for (; b && state_class(b) != c; b = next_freed(b))
        last = b;
    if (b == NULL)
        return NULL;
    check_poison(b);
    if (last)
        last->size = b->size;
    else
        *link = next_freed(b);
    return b;
}

/* The first thread's own part is a quarter of the heap, as is that of all others together. */
static unsigned quarter(void) { return (unsigned)(__heap_end - __heap) / 4 & ~15u; }

static unsigned part_size(unsigned slot) {
    unsigned others = __numbers.most_threads - 1;
    return slot == 0 ? quarter() : quarter() / (others ? others : 1) & ~15u;
}

static char *part_of(unsigned slot) { return __heap + (slot == 0 ? 0 : quarter() + (slot - 1) * part_size(slot)); }

static struct heap_block *fresh(unsigned room) {
    struct thread *t = me();
    if (t->taken + room <= part_size(t->slot)) {
        t->taken += room;
        return (struct heap_block *)(part_of(t->slot) + t->taken - room);
    }
    char *common = __heap + 2 * quarter();
    unsigned at = ADD(common_taken, room);
    if (at + room > (unsigned)(__heap_end - common))
        __fail("malloc: the heap is full: give delorean-cc a larger --heap", "");
    return (struct heap_block *)(common + at);
}

void *malloc(size_t size) {
    if (size > LARGEST) {
        errno = ENOMEM;
        return NULL;
    }
    unsigned c = class_of(size);
    struct heap_block *b = __keep_freed ? NULL : freed_before(c);
    if (b == NULL)
        b = fresh(room_of(c));
    b->size = size;
    b->state = GIVEN | c;
    set_guard(b);
    return bytes_of(b);
}

/* ---- giving back */

static struct heap_block *checked(void *p) {
    struct heap_block *b = block_of(p);
    if ((char *)p < __heap + HEAD || (char *)p >= __heap_end || (uintptr_t)p % 8)
        complain("free: malloc hasn't given ", p);
    if (state_kind(b) == FREED)
        complain("free: freed before: the block at ", p);
    if (state_kind(b) != GIVEN)
        complain("free: malloc hasn't given ", p);
    check_guard(b);
    return b;
}

static void *whole_block(void *p) {
    return (uintptr_t)p % 8 == 0 && (char *)p > __heap && (char *)p < __heap_end && state_kind(block_of(p)) == ALIGNED
        ? (void *)(uintptr_t)block_of(p)->size : p;
}

void free(void *p) {
    if (p == NULL)
        return;
    struct heap_block *b = checked(whole_block(p)), **link = &me()->freed[list_of(state_class(b))];
    b->state = FREED | state_class(b);
    poison(b);
    b->size = (unsigned)(uintptr_t)*link;
    *link = b;
}

/* ---- the family */

void *calloc(size_t count, size_t size) {
    size_t all;
    if (__builtin_mul_overflow(count, size, &all))
        all = LARGEST + 1;
    void *p = malloc(all);
    return p ? memset(p, 0, all) : NULL;
}

void *realloc(void *p, size_t size) {
    if (p == NULL)
        return malloc(size);
    unsigned old = checked(p)->size;
    void *q = malloc(size);
    if (q) {
        memcpy(q, p, old < size ? old : size);
        free(p);
    }
    return q;
}

void *reallocarray(void *p, size_t count, size_t size) {
    size_t all;
    return realloc(p, __builtin_mul_overflow(count, size, &all) ? LARGEST + 1 : all);
}

/* A block that is larger than asked for, and in it a head that leads to the block's own. */
void *memalign(size_t alignment, size_t size) {
    char *p = malloc(alignment <= 8 ? size : size + alignment + HEAD);
    if (p == NULL || alignment <= 8)
        return p;
    char *q = (char *)(((uintptr_t)p + HEAD + alignment - 1) & ~(uintptr_t)(alignment - 1));
    *block_of(q) = (struct heap_block){(unsigned)(uintptr_t)p, ALIGNED};
    return q;
}

void *aligned_alloc(size_t alignment, size_t size) { return memalign(alignment, size); }

int posix_memalign(void **to, size_t alignment, size_t size) {
    void *p = memalign(alignment, size);
    if (p == NULL)
        return ENOMEM;
    *to = p;
    return 0;
}

/* ---- at the program's end: all blocks, if no thread is left that could be in the middle of one */

static int all_are_over(void) {
    for (unsigned slot = 1; slot < LOAD(__next_slot); slot++)
        if (!thread_of(slot)->joined && !__is_over(thread_of(slot)))
            return 0;
    return me()->slot == 0;
}

static void check_blocks(char *at, const char *end) {
    while (at < end) {
        struct heap_block *b = (struct heap_block *)at;
        if (state_kind(b) == FREED)
            check_poison(b);
        else if (state_kind(b) == GIVEN)
            check_guard(b);
        else
            complain("malloc: written over the head of the block at ", bytes_of(b));
        at += room_of(state_class(b));
    }
}

void __check_heap(void) {
    if (!all_are_over())
        return;
    for (unsigned slot = 0; slot < LOAD(__next_slot); slot++)
        check_blocks(part_of(slot), part_of(slot) + thread_of(slot)->taken);
    check_blocks(__heap + 2 * quarter(), __heap + 2 * quarter() + common_taken);
}
