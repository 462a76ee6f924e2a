#include "search.h"

#include "ends.h"
#include "loops.h"
#include "saving.h"
#include "scouts.h"
#include "seen.h"
#include "segments.h"
#include "whole.h"
#include "work.h"
#include "worker.h"

static void start_over(void) {
    struct tally *tally = whole.tally;
    forget_seen();
    forget_ends();
    forget_items();
    drop_old_facts();
    forget_lines();
    work_left()->count = whole.later.count = 0;
    tally->bound = 0;
    tally->most_places = 0;
    tally->ended = tally->waited = tally->repeated = tally->limited = 0;
    push(work_left(), add_item((struct item){.parent = NO_ITEM}));
    whole.of_bound = 1;
}

static void go_to_next_bound(void) {
    struct list empty = *work_left();
    *work_left() = whole.later;
    whole.later = empty;
    whole.of_bound = work_left()->count;
    whole.tally->bound++;
}

/* Nothing is left to be tried with the present bound. */
static bool bound_is_last(enum finish *which) {
    struct standing s = standing();
    tell_bound(&s);
    *which = whole.tally->bound < whole.limits->switches ? ALL_DONE : BOUND_DONE;
    return whole.later.count == 0;
}

static void search_together(void) {
    allow_work();
    whole.changes_before = changes_begun();
    together(work);
    drop_former_tables();
}

static enum finish go_through(void) {
    enum finish finish;
    for (;;) {
        if (work_left()->count == 0) {
            if (bound_is_last(&finish))
                return finish;
            go_to_next_bound();
        }
        if (limit_is_met(&finish)) {
            if (is_to_be_saved())
                save();
            return finish;
        }
        if (save_is_due())
            save();
        search_together();
        if (whole.found != NULL)
            return FOUND;
        if (is_outdated()) {
            whole.tally->restarts++;
            start_over();
        }
    }
}

/* The run that ends badly is that of whoever began the search, and its own one the other's. */
static void take_over(struct run *r) {
    struct run other = *whole.found;
    *whole.found = *r;
    *r = other;
}

/* Which words are shared is found out before the search begins, or was so. */
static void begin(struct run *r) {
    tell_facts(crew_size() > 1 || is_to_be_saved() || is_to_be_resumed());
    if (!is_to_be_resumed())
        send_scouts(r, whole.limits->seconds / 10);
    start_over();
    if (is_to_be_resumed())
        go_on_from_file();
}

static void set_whole(struct run *r, const struct condition *bad, const struct limits *limits, struct tally *tally) {
    double now = now_seconds();
    begin_saving(now);
    whole.began_at = now;
    whole.ends_at = now + limits->seconds;
    whole.first_run = r;
    whole.bad = bad;
    whole.limits = limits;
    whole.tally = tally;
    whole.tries.value = 0;
    whole.found = NULL;
}

enum finish search(struct run *r, const struct condition *bad, const struct limits *limits, struct tally *tally) {
    set_whole(r, bad, limits, tally);
    learn(true);
    start_seen(limits->states);
    every_shared_word_is_a_place(r->all_places || r->raise_count > 0);
    r->minds_marks = !r->all_places && r->raise_count == 0;
    whole.as_begun = *r;
    begin(r);
    enum finish finish = go_through();
    tally->tries = whole.tries.value;
    if (whole.found != NULL && whole.found != r)
        take_over(r);
    return finish;
}
