#include "segments.h"

#include "crew.h"

#include <string.h>

/* Of a word the threads whose present segments have touched it, as bits. */
struct touched_by { uint64_t loads, stores; };

/* Of the runs of each of the crew: */
static _Thread_local struct touched_by *touched_by;
static _Thread_local struct segment present[MOST_THREADS];
static _Thread_local uint32_t threads; /* that have touched a word in any segment, or come before one that has */
static _Thread_local struct hash sum_of_all;
static _Thread_local uint64_t touches;
static _Thread_local bool news, at_place, learns = true;
static _Thread_local uint32_t known_then; /* when the run began */
/* Of all runs: */
_Atomic uint8_t *made_place;
static _Atomic uint32_t place_words, changes;
bool all_places = true;

/* ---------------------------------------------------------------- places */

void every_shared_word_is_a_place(bool all) { all_places = all; }

uint32_t place_word_count(void) { return all_places ? shared_count() : place_words; }

uint32_t knowledge(void) { return shared_count() + place_words; }

uint32_t changes_begun(void) { return changes; }

void begin_change(void) { changes++; }

bool has_news(void) { return news || known_then != knowledge(); }

void tell_news(void) {
    news = true;
    delay("news");
}

void learn(bool so) { learns = so; }

bool is_learning(void) { return learns; }

void put_place(uint32_t address) {
    if (!atomic_exchange(&made_place[address / 4], 1))
        place_words++;
}

void make_place(uint32_t address) {
    if (!learns || all_places || is_made_place(address))
        return;
    begin_change();
    put_place(address);
    tell_news();
}

/* ---------------------------------------------------------------- segments */

static struct hash without(struct hash h, struct hash g) { return (struct hash){h.a - g.a, h.b - g.b}; }

static void add_word(struct segment *s, uint32_t word) {
    if (s->count == s->room) {
        s->room = s->room ? 2 * s->room : 64;
        s->words = more_room(s->words, s->room, sizeof *s->words);
    }
    s->words[s->count++] = word;
}

static uint64_t *mask_of(uint32_t word) {
    struct touched_by *t = &touched_by[word / 4];
    return word & STORES ? &t->stores : &t->loads;
}

static void empty(uint32_t thread) {
    struct segment *s = &present[thread];
    for (size_t j = 0; j < s->count; j++)
        *mask_of(s->words[j]) &= ~(1ull << thread);
    sum_of_all = without(sum_of_all, s->hash);
    s->count = 0;
    s->hash = (struct hash){0, 0};
}

void start_places(uint32_t size) {
    made_place = room(size / 4, 1);
    place_words = 0;
}

void start_segments(uint32_t size) {
    touched_by = room(size / 4, sizeof *touched_by);
    forget_segments();
}

void forget_segments(void) {
    for (uint32_t k = 0; k < threads; k++)
        empty(k);
    threads = 0;
    touches = 0;
    news = false;
    known_then = knowledge();
}

void begin_segment(uint32_t thread) {
    empty(thread);
    at_place = true;
}

void go_on_in_segment(void) { at_place = false; }

static void add_touch(uint32_t thread, uint32_t word) {
    struct segment *s = &present[thread];
    struct hash h = mixed(word, thread + 0x5E6);
    *mask_of(word) |= 1ull << thread;
    threads = thread < threads ? threads : thread + 1;
    add_word(s, word);
    s->hash = sum(s->hash, h);
    sum_of_all = sum(sum_of_all, h);
    touches++;
}

/* A DMA is done at once, so it has no segment; and where there are handlers, each shared word is a place's. */
void touch(uint32_t context, uint32_t address, enum touch how) {
    if (!learns || all_places || has_news() || is_made_place(address))
        return;
    const struct touched_by *t = &touched_by[address / 4];
    uint64_t mine = context < MOST_THREADS ? 1ull << context : 0;
    if ((t->stores | (how == STORES ? t->loads : 0)) & ~mine)
        make_place(address);
    else if (mine && !at_place && !((how == STORES ? t->stores : t->loads) & mine))
        add_touch(context, (address & ~3u) | (uint32_t)how);
}

struct hash segments(void) { return sum_of_all; }

uint64_t touch_count(void) { return touches; }

/* ---------------------------------------------------------------- kept */

static void copy_segment(struct segment *to, const struct segment *from) {
    to->count = 0;
    for (size_t j = 0; j < from->count; j++)
        add_word(to, from->words[j]);
    to->hash = from->hash;
}

void keep_segments(struct kept_segments *k) {
    for (uint32_t j = 0; j < threads; j++)
        copy_segment(&k->of[j], &present[j]);
    k->threads = threads;
    k->touches = touches;
}

void take_back_segments(const struct kept_segments *k) {
    for (uint32_t j = 0; j < threads; j++)
        empty(j);
    for (uint32_t j = 0; j < k->threads; j++)
        for (size_t w = 0; w < k->of[j].count; w++)
            add_touch(j, k->of[j].words[w]);
    touches = k->touches;
}
