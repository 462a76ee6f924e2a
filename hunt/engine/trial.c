#include "trial.h"

#include "choices.h"
#include "keys.h"
#include "kept.h"
#include "leaf.h"
#include "limit.h"
#include "seen.h"
#include "tree.h"
#include "whole.h"
#include "work.h"

/* ---------------------------------------------------------------- to an end */

/* Who has had its steps is as if it came anew, since others could come for nothing. */
static void go_past(struct trial *t, enum stop stop, bool *past) {
    *past = stop != AT_SPENT;
    if (stop == AT_SPENT)
        comes(t);
    else
        t->fresh = t->fresh && stop == AT_INTERRUPTIBLE;
}

/* At a place, or where an interrupt may come. The current thread goes on past it, except if a turn has come to its end from here. If
   another one of the crew is on its way, what others could do here is its business, but that doesn't end this turn: two that are in
   one loop would wait for each other, and neither would see that the thread waits. */
static enum result at_place(struct trial *t, enum stop stop, bool *past) {
    struct hash state = whole_state(t->run), key = key_of(state, t->run->current, AT_PLACE_KEY);
    look_ahead(key);
    bool counts = is_counted(t, stop);
    enum meeting meeting = meet(key, whole.tally->bound);
    delay("place");
    if (meeting == IS_KNOWN) {
        close_turn();
        return IS_DONE;
    }
    if (meeting == IS_FIRST) {
        keep_key(key);
        t->places += counts;
        offer(t, stop, state);
    } else if (!is_in_turn(key))
        t->places += counts;
    go_past(t, stop, past);
    return GOES_ON;
}

static const enum turn_end end_at[] = {
    [AT_PLACE] = FORCED, [AT_INTERRUPTIBLE] = FORCED, [AT_STOP] = STOPPED, [AT_WAIT] = WAITS, [AT_SPENT] = SPENT};

static enum stop go_to_stop(struct trial *t, bool *past) {
    /* after a DMA or an interrupt at a turn's end no thread is there yet */
    enum stop stop = t->run->current == NO_ONE ? AT_STOP : go_on(t->run, *past);
    *past = false;
    t->stop++;
    return stop;
}

static enum result choose(struct trial *t, enum turn_end end);
static enum result at_spent(struct trial *t, bool *past);

/* On to the run's end, and to those of all that parts from it for nothing. */
static enum result go_to_end(struct trial *t) {
    enum result result = GOES_ON;
    bool past = false;
    while (result == GOES_ON) {
        enum stop stop = go_to_stop(t, &past);
        if (is_outdated())
            return IS_OVER; /* the search begins again */
        if (stop == AT_LIMIT) {
            close_turn();
            own.counts.limited++;
            result = IS_DONE;
        } else if (end_at[stop] == FORCED)
            result = at_place(t, stop, &past);
        else if (is_bad_already(t->run, whole.bad)) {
            end_turn(t->run, end_at[stop]);
            result = IS_BAD;
        } else if (stop == AT_SPENT)
            result = at_spent(t, &past);
        else
            result = choose(t, end_at[stop]);
    }
    if (t->places > own.counts.most_places)
        own.counts.most_places = t->places;
    return result == IS_DONE && must_come_back() ? IS_OVER : result;
}

/* ---------------------------------------------------------------- the tree of runs */

/* The item parts here from its parent's run, which was this one so far. */
static void part(struct trial *t, uint32_t item, enum turn_end end) {
    t->item = item;
    t->places = item_of(item).places;
    take_choice(t, item_of(item).choice, end);
}

static enum result try_item(struct trial *t) {
    whole.tries.value++;
    note_tried(t->item);
    return go_to_end(t);
}

static enum result try_tree(struct trial *t);

/* Likewise, to its end, or to where those part that are to be tried; and then the run is here again. */
static enum result try_apart(const struct trial *parent, uint32_t item, enum turn_end end) {
    struct trial t = *parent;
    keep_run(t.run);
    part(&t, item, end);
    enum result result = try_tree(&t);
    if (result == IS_DONE)
        take_back_run(t.run);
    drop_run();
    return result;
}

/* So many of them are tried now; or later, by whomever, if the search is over, no more runs can be kept, or others have nothing to do. */
static enum result try_ways(const struct trial *t, const struct ways *ways, uint32_t count, enum turn_end end, enum result result) {
    uint32_t next = 0;
    for (; next < count && result == IS_DONE && can_keep() && !others_want_work(); next++)
        result = try_apart(t, ways->items[next], end);
    give_work(ways->items + next, count - next);
    return result;
}

/* The current thread has had its steps. Others may come, for nothing. Before they do, it goes on in the same turn, to its end: so the
   turn that is the first in a loop sees it, and isn't left because others have been in its states meanwhile. */
static enum result at_spent(struct trial *t, bool *past) {
    struct run *run = t->run;
    struct hash state = state_after_chunk(run), key = key_of(state, run->current, GOING_ON);
    struct ways ways;
    enum meeting meeting = meet(key, whole.tally->bound);
    if (meeting == IS_KNOWN) {
        close_turn();
        return IS_DONE;
    }
    if (meeting == IS_FIRST)
        keep_key(key);
    is_new(key_of(state, run->current, COMING), whole.tally->bound); /* whoever comes to this is here */
    find_ways(t, state, &ways);
    if (ways.count == 0 || !can_keep() || others_want_work()) {
        give_work(ways.items, ways.count);
        go_past(t, AT_SPENT, past);
        return GOES_ON;
    }
    struct trial on = *t;
    keep_run(run);
    go_past(&on, AT_SPENT, past);
    enum result result = go_to_end(&on);
    if (result == IS_DONE)
        take_back_run(run);
    drop_run();
    return try_ways(t, &ways, ways.count, SPENT, result);
}

/* No thread goes on: others are chosen, for nothing. The last new choice is gone on with here. */
static enum result choose(struct trial *t, enum turn_end end) {
    struct ways ways;
    end_turn(t->run, end);
    delay("leaf");
    if (is_leaf(t->run) && leaf_is_bad(t->run))
        return IS_BAD;
    find_ways(t, whole_state(t->run), &ways);
    close_turn();
    if (ways.count == 0)
        return IS_DONE;
    uint32_t last = ways.items[ways.count - 1];
    enum result result = try_ways(t, &ways, ways.count - 1, end, IS_DONE);
    if (result != IS_DONE) {
        give_work(&last, 1);
        return result;
    }
    part(t, last, end);
    return GOES_ON;
}

/* The run goes on to that stop; it has done the one where it is, if that is after `from`. */
static enum stop go_on_to(struct trial *t, uint32_t number, uint32_t from, enum stop stop) {
    for (bool past = false; t->stop < number; stop = go_to_stop(t, &past))
        if (t->stop > from)
            go_past(t, stop, &past);
    return stop;
}

/* The item is done, or was done before: then its run is done once more, and what parts from it and is to be tried is. */
static enum result try_tree(struct trial *t) {
    enum result result = IS_DONE;
    enum stop stop = AT_STOP;
    uint32_t from = t->stop, next = first_part(t->item), item;
    while ((item = next) != NO_ITEM && result == IS_DONE) {
        stop = go_on_to(t, item_of(item).stop, from, stop);
        if (is_outdated())
            return IS_OVER;
        next = next_part(item);
        if (next != NO_ITEM) {
            result = can_keep() ? try_apart(t, item, end_at[stop]) : IS_DONE;
            continue;
        }
        part(t, item, end_at[stop]);
        from = t->stop;
        next = first_part(item);
    }
    return result == IS_DONE && is_to_be_tried(t->item) ? try_item(t) : result;
}

enum result try_some(struct run *run, const struct list *some) {
    struct trial t = {.run = run, .item = FIRST_ITEM, .fresh = true};
    make_tree(some->items, some->count);
    start_run(run);
    begin_turn(run, 0);
    forget_turn();
    return try_tree(&t);
}
