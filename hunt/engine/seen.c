#define _DEFAULT_SOURCE
#include "seen.h"

#include "crew.h"

#include <stdlib.h>
#include <sys/mman.h>

enum { COSTS = 256, OPEN = 256, MARKS = 512, PARTS = 256, FIRST_PLACES = 16 };

/* The low byte of b is the cost and 1; the next bit is set while the state's turn goes on. */
struct entry { _Atomic uint64_t a, b; };

/* A place has a tag, which is 0 while it is empty, and else some bits of its state. So mostly the tags alone are looked at, which the
   processor has near. Once the tag isn't 0 the state is there, and stays; only the cost becomes less, and OPEN is cleared. */
struct table {
    uint64_t places;
    struct table *former; /* which others may still look at */
    _Atomic uint8_t *tags;
    struct entry in[];
};

/* Whoever changes a part has its lock. Without it others may look, and find what is there or was there before. */
struct part {
    _Alignas(64) atomic_flag lock;
    struct table *_Atomic table;
    uint64_t count;
};

static struct part parts[PARTS];
static struct counter count;
static uint64_t most;

/* In the system's large pages, if it is large: else the processor would mostly be looking for pages. */
static void *wide_room(size_t size) {
    enum { LARGE_PAGE = 1 << 21 };
    void *got;
    if (size < LARGE_PAGE)
        return more_room(NULL, size, 1);
    if (posix_memalign(&got, LARGE_PAGE, size) != 0)
        fail("out of memory");
#ifdef MADV_HUGEPAGE
    madvise(got, size, MADV_HUGEPAGE);
#endif
    return got;
}

static struct table *new_table(uint64_t places, struct table *former) {
    struct table *t = wide_room(sizeof *t + places * (sizeof t->in[0] + sizeof t->tags[0]));
    t->places = places;
    t->former = former;
    t->tags = (_Atomic uint8_t *)&t->in[places];
    for (uint64_t j = 0; j < places; j++)
        atomic_init(&t->tags[j], 0);
    return t;
}

static void drop(struct table *t) {
    while (t != NULL) {
        struct table *former = t->former;
        free(t);
        t = former;
    }
}

void start_seen(uint64_t at_most) {
    most = at_most;
    forget_seen();
}

void forget_seen(void) {
    for (int j = 0; j < PARTS; j++) {
        drop(parts[j].table);
        parts[j].table = new_table(FIRST_PLACES, NULL);
        parts[j].count = 0;
        atomic_flag_clear(&parts[j].lock);
    }
    count.value = 0;
}

void drop_former_tables(void) {
    for (int j = 0; j < PARTS; j++) {
        drop(parts[j].table->former);
        parts[j].table->former = NULL;
    }
}

uint64_t seen_count(void) { return count.value; }

bool seen_is_full(void) { return count.value >= most; }

/* ---------------------------------------------------------------- a part */

static struct part *part_of(struct hash state) { return &parts[(state.a >> 32) % PARTS]; }

static uint8_t tag_of(struct hash state) { return (uint8_t)(state.b >> 57 | 128); }

static bool is_of(const struct entry *e, struct hash state, uint64_t b) {
    return b / MARKS == state.b / MARKS && atomic_load_explicit(&e->a, memory_order_relaxed) == state.a;
}

/* The state's place, or the empty one where it would be; it isn't at any from its first place to this one. What is loaded of its b
   is put there: 0 if the place is empty. */
static uint64_t place_from(const struct table *t, uint64_t at, struct hash state, uint64_t *b) {
    uint8_t wanted = tag_of(state), tag;
    for (; (tag = atomic_load_explicit(&t->tags[at], memory_order_acquire)) != 0; at = (at + 1) & (t->places - 1)) {
        if (tag != wanted)
            continue;
        *b = atomic_load_explicit(&t->in[at].b, memory_order_acquire);
        if (is_of(&t->in[at], state, *b))
            return at;
    }
    *b = 0;
    return at;
}

static uint64_t place_of(const struct table *t, struct hash state, uint64_t *b) {
    return place_from(t, state.a & (t->places - 1), state, b);
}

void look_ahead(struct hash state) {
#ifdef __GNUC__
    const struct table *t = part_of(state)->table;
    uint64_t at = state.a & (t->places - 1);
    __builtin_prefetch(&t->tags[at]);
    __builtin_prefetch(&t->in[at]);
#else
    (void)state;
#endif
}

static void put_at(struct table *t, uint64_t at, struct hash entry) {
    atomic_store_explicit(&t->in[at].a, entry.a, memory_order_relaxed);
    atomic_store_explicit(&t->in[at].b, entry.b, memory_order_release);
    atomic_store_explicit(&t->tags[at], tag_of(entry), memory_order_release);
}

static struct hash entry_at(const struct table *t, uint64_t at) { return (struct hash){t->in[at].a, t->in[at].b}; }

static void grow(struct part *p) {
    struct table *t = p->table, *larger = new_table(2 * t->places, t);
    for (uint64_t j = 0, b; j < t->places; j++)
        if (t->tags[j] != 0)
            put_at(larger, place_of(larger, entry_at(t, j), &b), entry_at(t, j));
    p->table = larger;
    if (crew_size() == 1)
        drop_former_tables();
}

/* In that place, in which b is now. */
static void put(struct part *p, uint64_t place, uint64_t now, struct hash entry) {
    put_at(p->table, place, entry);
    if (now != 0)
        return;
    count_up(&count, crew_size() == 1);
    if (++p->count > p->table->places / 2)
        grow(p);
}

static enum meeting meeting_of(uint64_t b, uint32_t cost) {
    return b == 0 || b % COSTS > cost + 1 ? IS_FIRST : b & OPEN ? IS_GOING_ON : IS_KNOWN;
}

static enum meeting met_with(struct hash state, uint32_t cost, uint64_t open) {
    struct part *p = part_of(state);
    const struct table *t = p->table;
    uint64_t b, place = place_of(t, state, &b);
    if (meeting_of(b, cost) == IS_KNOWN)
        return IS_KNOWN;
    spin_lock(&p->lock);
    place = p->table == t ? place_from(t, place, state, &b) : place_of(p->table, state, &b);
    enum meeting meeting = meeting_of(b, cost);
    if (meeting == IS_FIRST)
        put(p, place, b, (struct hash){state.a, state.b / MARKS * MARKS + open + cost + 1});
    spin_unlock(&p->lock);
    return meeting;
}

bool is_new(struct hash state, uint32_t cost) { return met_with(state, cost, 0) == IS_FIRST; }

enum meeting meet(struct hash state, uint32_t cost) { return met_with(state, cost, OPEN); }

void turn_has_ended(struct hash state) {
    struct part *p = part_of(state);
    uint64_t b;
    spin_lock(&p->lock);
    uint64_t place = place_of(p->table, state, &b);
    atomic_store_explicit(&p->table->in[place].b, b & ~(uint64_t)OPEN, memory_order_release);
    spin_unlock(&p->lock);
}

/* ---------------------------------------------------------------- all of it */

void each_seen(void (*see)(struct hash entry)) {
    for (int k = 0; k < PARTS; k++) {
        const struct table *t = parts[k].table;
        for (uint64_t j = 0; j < t->places; j++)
            if (t->tags[j] != 0)
                see(entry_at(t, j));
    }
}

void put_seen(struct hash entry) {
    struct part *p = part_of(entry);
    uint64_t b, place = place_of(p->table, entry, &b);
    put(p, place, b, entry);
}
