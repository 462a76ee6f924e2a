#include "guide.h"

#include "idle.h"
#include "stuck.h"

static enum turn_end end_of(enum stop stop) {
    return stop == AT_STOP ? STOPPED : stop == AT_WAIT ? WAITS : stop == AT_SPENT ? SPENT : FORCED;
}

static bool is_live(const struct run *r, uint32_t thread) {
    return thread < r->machine.thread_count && r->machine.threads[thread].status == LIVE;
}

static enum stop take_freely(struct run *r, uint32_t thread, uint64_t steps) {
    if (!is_enabled(r, thread))
        return AT_PLACE;
    begin_turn(r, thread);
    enum stop stop = go_steps(r, steps);
    end_turn(r, end_of(stop));
    return stop;
}

/* To an end that is known, if the turn comes so far. */
static enum stop take_exactly(struct run *r, const struct turn *turn, enum turn_end end) {
    begin_turn(r, turn->actor);
    enum stop stop = go_exactly(r, turn->steps);
    end_turn(r, stop == AT_PLACE ? end : end_of(stop));
    return stop;
}

static void take_raise(struct run *r, const struct turn *turn) {
    if (turn->steps >= r->machine.thread_count || !can_interrupt(&r->machine.threads[turn->steps]))
        return;
    r->raises[0] = (struct raise){(uint32_t)turn->steps, turn->value};
    do_raise(r, 0);
    r->raised = 0;
}

/* What isn't a thread's. */
static void take_other(struct run *r, const struct turn *turn) {
    if (turn->actor >= RAISE)
        take_raise(r, turn);
    else if (r->machine.requested)
        do_dma(r);
}

static enum stop take_turn(struct run *r, const struct turn *turn, enum manner manner) {
    if (turn->actor >= DMA)
        take_other(r, turn);
    else if (is_live(r, turn->actor)) {
        if (manner == FREELY || turn->steps >= WHOLE)
            return take_freely(r, turn->actor, turn->steps);
        return take_exactly(r, turn, manner == AGAIN ? turn->end : FORCED);
    }
    return AT_PLACE;
}

/* The least thread that can go on, the last one first. */
static uint32_t next_thread(struct run *r, uint32_t last) {
    if (last < r->machine.thread_count && is_enabled(r, last))
        return last;
    for (uint32_t k = 0; k < r->machine.thread_count; k++)
        if (is_enabled(r, k))
            return k;
    return NO_ONE;
}

/* A thread that goes on though it has had its steps, since no other could, has twice as many, so that a long loop is seen. */
static enum outcome finished(struct run *r, uint32_t last, const struct condition *bad) {
    uint64_t steps = r->turn_limit;
    for (uint32_t spent = NO_ONE;;) {
        uint32_t thread = next_thread(r, last);
        if (is_bad_already(r, bad))
            return BAD;
        if (thread == NO_ONE && !r->machine.requested)
            return ends_badly(r, bad) ? BAD : GOOD;
        if (thread == NO_ONE) {
            do_dma(r);
            continue;
        }
        steps = thread == spent ? 2 * steps : r->turn_limit;
        begin_turn(r, thread);
        enum stop stop = go_steps(r, steps);
        end_turn(r, stop == AT_PLACE ? SPENT : end_of(stop));
        if (stop == AT_LIMIT)
            return LIMITED;
        spent = stop == AT_PLACE ? thread : NO_ONE;
        last = stop == AT_PLACE ? (thread + 1) % r->machine.thread_count : thread;
    }
}

enum outcome guided(struct run *r, const struct guide *guide, const struct condition *bad) {
    uint32_t last = 0;
    start_run(r);
    for (size_t j = 0; j < guide->count; j++) {
        const struct turn *turn = &guide->turns[j];
        if (take_turn(r, turn, guide->manner) == AT_LIMIT)
            return LIMITED;
        if (turn->actor < MOST_THREADS)
            last = turn->actor;
        if (is_bad_already(r, bad) || (guide->until == LAST_TURN && holds_at_end(bad, &r->machine)))
            return BAD;
    }
    return guide->until == LAST_TURN ? GOOD : finished(r, last, bad);
}

/* ---------------------------------------------------------------- idle steps */

static void note_steps(struct run *r, struct idle *idle, const struct turn *turn) {
    begin_turn(r, turn->actor);
    size_t number = r->turn_count - 1;
    note_turn(idle, &r->machine, turn->actor, number);
    enum stop stop = AT_PLACE;
    for (uint64_t j = 0; j < turn->steps && stop == AT_PLACE; j++) {
        stop = go_exactly(r, 1);
        note_step(idle, &r->machine, turn->actor, number);
    }
    end_turn(r, end_of(stop));
}

void without_idle_steps(struct run *r, const struct turn *turns, size_t count) {
    static struct idle idle;
    start_idle(&idle);
    start_run(r);
    for (size_t j = 0; j < count; j++) {
        if (turns[j].actor >= DMA)
            take_other(r, &turns[j]);
        else if (is_live(r, turns[j].actor))
            note_steps(r, &idle, &turns[j]);
    }
    for (size_t j = 0; j < idle.turn_count; j++)
        if (r->turns[j].actor < MOST_THREADS)
            r->turns[j].steps = idle.kept[j];
}
