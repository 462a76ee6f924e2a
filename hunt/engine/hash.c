#include "inside.h"

struct hash chained(struct hash h, uint64_t v) {
    h.a = (h.a ^ v) * 0x9FB21C651E98DF25u;
    h.a ^= h.a >> 29;
    h.b = (h.b + v) * 0xD6E8FEB86659FD93u;
    h.b ^= h.b >> 32;
    return h;
}

/* Of a thread that has ended nothing but how is looked at again. */
struct hash hash_of_thread(const struct thread *t) {
    struct hash h = {t->status, t->code};
    if (t->status == LIVE) {
        for (int r = 0; r < 32; r += 2)
            h = chained(h, t->x[r] | (uint64_t)t->x[r + 1] << 32);
        h = chained(h, t->pc | (uint64_t)t->reservation << 32);
        h = chained(h, t->handler | (uint64_t)t->masked << 32);
        h = chained(h, t->saved_pc);
        h = chained(h, t->saved_a0 | (uint64_t)t->saved_a1 << 32);
    }
    return mixed(h.a, h.b);
}

/* Of all but the memory and the threads. */
struct hash hash_of_rest(const struct machine *m) {
    const struct devices *d = &m->devices;
    struct hash h = {m->requested, m->thread_count};
    h = chained(h, m->request_buffer | (uint64_t)m->request_length << 32);
    h = chained(h, d->random);
    h = chained(h, d->input_at | (uint64_t)d->reads_of_clock << 32);
    h = chained(h, d->console.a);
    h = chained(h, m->answers_taken.a + (m->setup->dma_count ? m->dmas_done : 0));
    for (int p = 0; p < PIPES; p++) {
        h = chained(h, d->held[p]);
        for (int j = 0; j < d->held[p]; j++)
            h = chained(h, d->pipe[p][j]);
    }
    return mixed(h.a, h.b);
}
