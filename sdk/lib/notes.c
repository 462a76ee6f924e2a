/* The notes of the locks that a thread holds. */
#include "wait.h"

void __note_held(const void *lock, enum noted how, void *at) {
    struct thread *t = me();
    unsigned count = t->held_count++;
    if (count >= NOTED_LOCKS)
        return;
    t->held[count] = (struct held){lock, at};
    t->held_as[count] = (unsigned char)how;
}

static unsigned noted_count(const struct thread *t) { return t->held_count < NOTED_LOCKS ? t->held_count : NOTED_LOCKS; }

static void close_gap(struct thread *t, unsigned gap) {
    unsigned last = noted_count(t) - 1;
    for (; gap < last; gap++) {
        t->held[gap] = t->held[gap + 1];
        t->held_as[gap] = t->held_as[gap + 1];
    }
    t->held[last] = (struct held){0, 0};
    t->held_as[last] = NOTHING;
}

/* Forgets the lock, and gives how it was held: NOTHING if this thread didn't take it, or took it after eight others. */
enum noted __note_given(const void *lock) {
    struct thread *t = me();
    unsigned j = noted_count(t);
    while (j > 0 && t->held[j - 1].lock != lock)
        j--;
    if (j == 0) {
        t->held_count -= t->held_count > NOTED_LOCKS;
        return NOTHING;
    }
    enum noted how = t->held_as[j - 1];
    close_gap(t, j - 1);
    t->held_count--;
    return how;
}
