#include "whole.h"

#include "scouts.h"
#include "seen.h"
#include "segments.h"
#include "work.h"

struct whole whole = {.lock = ATOMIC_FLAG_INIT};
_Thread_local struct own own;

void hand_in(void) {
    struct tally *tally = whole.tally, *counts = &own.counts;
    spin_lock(&whole.lock);
    push_all(&whole.later, &own.put_off);
    tally->ended += counts->ended;
    tally->waited += counts->waited;
    tally->repeated += counts->repeated;
    tally->limited += counts->limited;
    if (counts->most_places > tally->most_places)
        tally->most_places = counts->most_places;
    spin_unlock(&whole.lock);
    own.put_off.count = 0;
    own.counts = (struct tally){.tries = 0};
}

void has_found(struct run *run) {
    spin_lock(&whole.lock);
    if (whole.found == NULL)
        whole.found = run;
    spin_unlock(&whole.lock);
}

struct standing standing(void) {
    spin_lock(&whole.lock);
    uint32_t places = whole.tally->most_places > own.counts.most_places ? whole.tally->most_places : own.counts.most_places;
    spin_unlock(&whole.lock);
    return (struct standing){whole.tally->bound, places, place_word_count(), whole.tries.value, seen_count(), now_seconds() - whole.began_at,
                             work_count(), whole.of_bound};
}

bool is_outdated(void) { return changes_begun() != whole.changes_before; }
