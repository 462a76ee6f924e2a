/* The block of each thread, 512 bytes right below its tp. Block number SLOT is at __threads + SLOT * __thread_room + __stack_size.
   Only the thread itself changes it after its start, so a search finds no shared word in it.

   The notes, from `waits` to `held_as`, say what the thread waits for and what it holds. They
   are for whoever reads the memory at the end of a run. Offsets are in sdk/README.md, and don't change. */
#ifndef DELOREAN_BLOCK_H
#define DELOREAN_BLOCK_H

#include <pthread.h>
#include <stdint.h>

enum { NOTED_LOCKS = 8, BLOCK_CLASSES = 12, BLOCK_SIZE = 512 };
enum noted { NOTHING, MUTEX, CONDITION, THREAD_END, BARRIER, READ_LOCK, WRITE_LOCK, SEMAPHORE, ONCE, SPIN_LOCK, PIPE };

struct thread {
    unsigned number;             /* +0: the kernel's number of the thread */
    unsigned slot;               /* +4: which of the places it has; 0 is the first thread's */
    void *(*function)(void *);   /* +8 */
    void *argument, *result;     /* +12, +16 */
    unsigned waits;              /* +20: what it waits for: an enum noted, or 0 */
    const void *waits_for;       /* +24: the object's address; of a thread, its block's */
    void *waits_at;              /* +28: the address after the call */
    unsigned held_count;         /* +32: how many locks it holds, of which the first 8 are noted */
    struct held { const void *lock; void *at; } held[NOTED_LOCKS]; /* +36: in the order in which it took them */
    unsigned char held_as[NOTED_LOCKS];                            /* +100: MUTEX, READ_LOCK, WRITE_LOCK or SPIN_LOCK */
    const void *specific[PTHREAD_KEYS_MAX];
    struct __delorean_cleanup *cleanup;
    struct heap_block *freed[BLOCK_CLASSES]; /* the heap's, by size */
    unsigned taken;                          /* bytes of the thread's own part of the heap */
    unsigned detached, joined;
    unsigned parks;                          /* whether it waits for another function at its end */
    unsigned over;                           /* of a thread that parks: how far it is, shared with others */
    unsigned chance;                         /* of returning from a wait without a signal */
};
_Static_assert(sizeof(struct thread) <= BLOCK_SIZE, "the block has this room");
_Static_assert(__builtin_offsetof(struct thread, held) == 36, "readers of the notes rest on it");
_Static_assert(__builtin_offsetof(struct thread, held_as) == 100, "readers of the notes rest on it");

/* Numbers that the linker script gives, from those of delorean-cc. */
struct numbers { unsigned most_threads, thread_room, stack_size, main_stack_room, tls_filled, tls_room; };
extern const struct numbers __numbers;
extern char __threads[], __tls_start[];

static inline struct thread *me(void) { return (struct thread *)((char *)__builtin_thread_pointer() - BLOCK_SIZE); }
static inline struct thread *thread_of(unsigned slot) {
    return (struct thread *)(__threads + slot * __numbers.thread_room + __numbers.stack_size);
}
static inline char *stack_end(struct thread *t) {
    return (char *)t - (t->slot == 0 ? __numbers.main_stack_room : __numbers.stack_size);
}
static inline void *tp_of(struct thread *t) { return (char *)t + BLOCK_SIZE; }

#endif
