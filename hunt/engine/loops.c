#include "loops.h"

#include "crew.h"
#include "segments.h"

#include <pthread.h>
#include <stdlib.h>
#include <string.h>

enum { MOST_LOOKS = 8 }; /* sets of words that are kept of one thread's state */

struct entry {
    struct hash key;
    bool used;
    uint8_t how;
    struct looks looks;
};

/* Each of the crew has a table of its own. */
static _Thread_local struct entry *table;
static _Thread_local size_t places, count;
static _Thread_local uint32_t known_then;
static _Thread_local size_t learnt; /* of the facts that were told, so many are in the table if they were of this knowledge */
static _Thread_local uint64_t dropped_then;

/* What was told, of all. */
static pthread_mutex_t lock = PTHREAD_MUTEX_INITIALIZER;
static struct fact *facts;
static size_t facts_room;
static _Atomic size_t told;
static _Atomic uint64_t times_dropped;
static bool tells;

/* Where a loop can be left depends on which words are places'. If there are more by now, all is found out anew. */
static void forget_old(void) {
    if (known_then == knowledge())
        return;
    known_then = knowledge();
    learnt = 0;
    if (places > 0)
        memset(table, 0, places * sizeof *table);
    count = 0;
}

static struct entry *place_of(struct entry *in, size_t size, struct hash key) {
    size_t at = key.a & (size - 1);
    while (in[at].used && !same_hash(in[at].key, key))
        at = (at + 1) & (size - 1);
    return &in[at];
}

static void grow(void) {
    size_t size = places ? 2 * places : 1024;
    struct entry *larger = room(size, sizeof *larger);
    for (size_t j = 0; j < places; j++)
        if (table[j].used)
            *place_of(larger, size, table[j].key) = table[j];
    free(table);
    table = larger;
    places = size;
}

static struct entry *found(struct hash key) {
    if (places == 0)
        return NULL;
    struct entry *e = place_of(table, places, key);
    return e->used ? e : NULL;
}

static struct entry *added(struct hash key) {
    if (2 * count >= places)
        grow();
    struct entry *e = place_of(table, places, key);
    count += !e->used;
    *e = (struct entry){.key = key, .used = true};
    return e;
}

void look_at(struct looks *l, uint32_t address) {
    for (uint32_t j = 0; j < l->count; j++)
        if (l->address[j] == (address & ~3u))
            return;
    if (l->count == LOOKED_AT)
        l->at_all = true;
    else
        l->address[l->count++] = address & ~3u;
}

/* What a thread may see by kernel calls. */
static struct hash sight_of(const struct machine *m) {
    return (struct hash){m->ended, m->thread_count | (uint64_t)m->requested << 7};
}

static struct hash looks_key(struct hash thread, struct hash sight, uint32_t number) {
    return sum(thread, mixed(sight.a, sight.b | (uint64_t)number << 8));
}

static struct hash hash_of_all(const struct machine *m) { return sum(m->memory_hash, hash_of_rest(m)); }

static struct hash hash_of_words(const struct looks *l, const struct machine *m) {
    struct hash h = mixed(l->count, 0x100F5);
    for (uint32_t j = 0; j < l->count; j++)
        h = sum(h, mixed(l->address[j], word_at(m, l->address[j]) | (uint64_t)(j + 1) << 32));
    return h;
}

static bool same_looks(const struct looks *l, const struct looks *k) {
    return l->at_all == k->at_all && (l->at_all || (l->count == k->count && memcmp(l->address, k->address, l->count * 4) == 0));
}

static void keep(const struct fact *f) {
    static const struct looks all = {.at_all = true};
    for (uint32_t number = 0; number <= MOST_LOOKS; number++) {
        const struct looks *wanted = number < MOST_LOOKS ? &f->loop.looks : &all;
        struct hash key = looks_key(f->thread, f->sight, number);
        struct entry *e = found(key);
        if (e == NULL) {
            e = added(key);
            e->looks = *wanted;
        }
        if (same_looks(&e->looks, wanted)) {
            added(sum(key, wanted->at_all ? f->all : f->words))->how = (uint8_t)f->loop.how;
            return;
        }
    }
}

/* ---------------------------------------------------------------- told by one to the others */

void tell_facts(bool so) { tells = so; }

/* All of the crew have come back. */
void drop_old_facts(void) {
    size_t kept = 0;
    for (size_t j = 0; j < told; j++)
        if (facts[j].loop.known == knowledge())
            facts[kept++] = facts[j];
    told = kept;
    times_dropped++;
}

size_t fact_count(void) { return told; }

struct fact fact_of(size_t number) { return facts[number]; }

void put_fact(const struct fact *f) {
    delay("fact");
    pthread_mutex_lock(&lock);
    if (told == facts_room) {
        facts_room = facts_room ? 2 * facts_room : 256;
        facts = more_room(facts, facts_room, sizeof *facts);
    }
    facts[told] = *f;
    told++;
    pthread_mutex_unlock(&lock);
}

static void learn_what_was_told(void) {
    if (dropped_then != times_dropped) {
        dropped_then = times_dropped;
        learnt = 0;
    }
    if (learnt == told || !tells)
        return;
    pthread_mutex_lock(&lock);
    for (; learnt < told; learnt++)
        if (facts[learnt].loop.known == known_then)
            keep(&facts[learnt]);
    pthread_mutex_unlock(&lock);
}

/* If another one of the crew has found a places' word since the loop's were counted, nothing is known of the loop. */
void keep_waiting(struct hash thread, const struct loop *loop, const struct machine *m) {
    struct fact f = {thread, sight_of(m), hash_of_words(&loop->looks, m), hash_of_all(m), *loop};
    forget_old();
    if (known_then != loop->known)
        return;
    if (!tells) {
        keep(&f);
        return;
    }
    put_fact(&f);
    learn_what_was_told();
}

enum waiting how_waits(struct hash thread, const struct machine *m) {
    struct hash sight = sight_of(m);
    forget_old();
    learn_what_was_told();
    for (uint32_t number = 0; number <= MOST_LOOKS; number++) {
        struct hash key = looks_key(thread, sight, number);
        struct entry *looks = found(key);
        if (looks == NULL)
            return IS_UNKNOWN;
        struct entry *state = found(sum(key, looks->looks.at_all ? hash_of_all(m) : hash_of_words(&looks->looks, m)));
        if (state != NULL)
            return state->how;
    }
    return IS_UNKNOWN;
}
