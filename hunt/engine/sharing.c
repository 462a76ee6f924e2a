#include "sharing.h"

#include "segments.h"

struct touchers _Atomic *touchers;
static uint32_t words;
static _Atomic uint32_t count;

void start_sharing(uint32_t size) {
    words = size / 4;
    touchers = room(words, sizeof *touchers);
    count = 0;
    start_places(size);
}

uint32_t shared_count(void) { return count; }

static bool same(struct touchers t, struct touchers u) {
    return t.loader == u.loader && t.storer == u.storer && t.shared == u.shared && t.fetched == u.fetched;
}

/* Whether the word is now `after`; if it isn't `before` any more, that is looked at again. */
static bool is_changed(uint32_t address, struct touchers *before, struct touchers after) {
    return same(*before, after) || atomic_compare_exchange_strong(&touchers[address / 4], before, after);
}

static void share(uint32_t address) {
    struct touchers t = touchers_of(address), after;
    if (!is_learning())
        return;
    do {
        if (t.shared)
            return;
        after = t;
        after.shared = true;
        begin_change();
    } while (!is_changed(address, &t, after));
    count++;
    tell_news();
}

void always_share(uint32_t address) { share(address); }

static uint8_t joined(uint8_t who, uint32_t context) { return who == NOBODY || who == context + 1 ? (uint8_t)(context + 1) : MANY; }

static bool is_of_two(struct touchers t) {
    bool two = t.storer == MANY || t.loader == MANY || (t.loader != NOBODY && t.loader != t.storer);
    return t.storer != NOBODY && two;
}

void note_load(uint32_t context, uint32_t address) {
    struct touchers t = touchers_of(address), after;
    do {
        after = t;
        after.loader = joined(t.loader, context);
    } while (!is_changed(address, &t, after));
    if (!after.shared && is_of_two(after))
        share(address);
    if (is_shared(address))
        touch(context, address, LOADS);
}

static void share_code(uint32_t address) {
    share(address);
    make_place(address);
}

void note_store(uint32_t context, uint32_t address) {
    struct touchers t = touchers_of(address), after;
    do {
        after = t;
        after.storer = joined(t.storer, context);
    } while (!is_changed(address, &t, after));
    if (after.fetched)
        share_code(address);
    if (!after.shared && is_of_two(after))
        share(address);
    if (is_shared(address))
        touch(context, address, STORES);
}

void note_fetched(uint32_t address) {
    struct touchers t = touchers_of(address), after;
    do {
        after = t;
        after.fetched = true;
    } while (!is_changed(address, &t, after));
    if (after.storer != NOBODY)
        share_code(address);
}

/* ---------------------------------------------------------------- kept in a file */

uint32_t toucher_word(uint32_t address) {
    struct touchers t = touchers_of(address);
    return t.loader | (uint32_t)t.storer << 8 | (uint32_t)t.shared << 16 | (uint32_t)t.fetched << 17;
}

void put_toucher_word(uint32_t address, uint32_t word) {
    struct touchers t = {(uint8_t)word, (uint8_t)(word >> 8), word >> 16 & 1, word >> 17 & 1};
    count += (uint32_t)t.shared - (uint32_t)is_shared(address);
    touchers[address / 4] = t;
}
