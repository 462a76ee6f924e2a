#include "choices.h"

#include "keys.h"
#include "seen.h"
#include "segments.h"
#include "whole.h"

/* ---------------------------------------------------------------- taken */

void comes(struct trial *t) {
    t->fresh = true;
    t->touches_then = touch_count();
}

static void do_by_others(struct run *run, uint32_t choice) {
    if (choice == DMA)
        do_dma(run);
    else
        do_raise(run, choice - RAISE);
}

void take_choice(struct trial *t, uint32_t choice, enum turn_end end) {
    struct run *run = t->run;
    uint32_t current = run->current;
    end_turn(run, end);
    forget_turn();
    if (choice == CUT) {
        begin_turn(run, current);
        return;
    }
    if (choice == DMA || choice >= RAISE) {
        do_by_others(run, choice);
        if (current != NO_ONE && end == FORCED)
            begin_turn(run, current);
        return;
    }
    begin_turn(run, choice);
    comes(t);
}

/* ---------------------------------------------------------------- there are */

/* A thread that waits is nothing to go on with. But others may see what it stores in its loop; and in a loop of several places it
   may be left when it has looked at one word, and not yet at another. */
static bool is_choice(struct run *run, uint32_t choice) {
    const struct machine *m = &run->machine;
    if (choice < m->thread_count)
        return m->threads[choice].status == LIVE && waiting_of(run, choice) != WAITS_AT_ONE_PLACE;
    return choice == DMA ? m->requested : choice >= RAISE && can_raise(run, choice - RAISE);
}

/* Choices are threads, a DMA, and interrupts. */
static uint32_t choice_after(const struct run *run, uint32_t choice) {
    return choice + 1 == run->machine.thread_count ? DMA : choice + 1;
}

static uint32_t end_of_choices(const struct run *run) { return RAISE + run->raise_count; }

static bool others_could_come(struct run *run) {
    for (uint32_t c = 0; c < end_of_choices(run); c = choice_after(run, c))
        if (c != run->current && is_choice(run, c))
            return true;
    return false;
}

bool is_leaf(struct run *run) {
    for (uint32_t c = 0; c < end_of_choices(run); c = choice_after(run, c))
        if (is_choice(run, c) && !(c < run->machine.thread_count && !is_enabled(run, c)))
            return false;
    return true;
}

bool is_counted(const struct trial *t, enum stop stop) { return stop == AT_PLACE && others_could_come(t->run); }

static uint32_t new_item(const struct trial *t, uint32_t choice) {
    return add_item((struct item){t->item, t->stop, t->places, (uint8_t)choice});
}

void find_ways(const struct trial *t, struct hash state, struct ways *ways) {
    struct run *run = t->run;
    ways->count = 0;
    for (uint32_t c = 0; c < end_of_choices(run); c = choice_after(run, c))
        if (c != run->current && is_choice(run, c) && is_new(key_of(state, c, COMING), whole.tally->bound))
            ways->items[ways->count++] = new_item(t, c);
}

/* ---------------------------------------------------------------- put off */

static void put_off(const struct trial *t, uint32_t choice) { push(&own.put_off, new_item(t, choice)); }

/* Whether the current thread has touched nothing that others touch since it came. */
static bool is_fresh(const struct trial *t) { return t->fresh && t->touches_then == touch_count(); }

/* Another thread comes, or the chunk ends before the SC. Whoever has touched nothing might as well come later; so nothing is lost
   either if this state is met again by a thread that has touched something, and the key doesn't tell the two. */
static void offer_switches(const struct trial *t, struct hash state) {
    struct run *run = t->run;
    uint32_t cost = whole.tally->bound + 1;
    if (is_fresh(t))
        return;
    delay("offer");
    bool is_reserved = run->machine.threads[run->current].reservation != NO_RESERVATION;
    struct hash after = is_reserved ? state_after_chunk(run) : state;
    for (uint32_t u = 0; u < run->machine.thread_count; u++)
        if (u != run->current && is_choice(run, u) && is_new(key_of(after, u, COMING), cost))
            put_off(t, u);
    if (is_at_sure_sc(run) && is_new(key_of(after, run->current, AFTER_CUT), cost))
        put_off(t, CUT);
}

static void offer_interrupts(const struct trial *t, bool of_current_alone) {
    const struct run *run = t->run;
    for (uint32_t j = 0; j < run->raise_count; j++)
        if (can_raise(run, j) && (!of_current_alone || run->raises[j].thread == run->current))
            put_off(t, RAISE + j);
}

void offer(const struct trial *t, enum stop stop, struct hash state) {
    if (whole.tally->bound == whole.limits->switches)
        return;
    if (stop == AT_PLACE) {
        offer_switches(t, state);
        if (t->run->machine.requested)
            put_off(t, DMA);
    }
    offer_interrupts(t, stop == AT_INTERRUPTIBLE);
}
