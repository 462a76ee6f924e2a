#include "chance.h"

#include "ends.h"
#include "leaf.h"
#include "priorities.h"
#include "scouts.h"
#include "segments.h"
#include "stuck.h"

static struct run *run;
static const struct condition *bad;
static const struct chance *chance;
static struct chances *chances;
static struct dice dice;             /* of the present run */
static struct priorities priorities; /* likewise */
static uint64_t points, passed;      /* that it has come to, and how many of them it has passed */
static uint64_t came_at;             /* the time at which the current thread came */
static bool had_its_steps;           /* a thread */
static uint32_t actors[ACTORS + 1], actor_count;

enum result { IS_BAD, IS_GOOD };

/* Those that could go on. */
static void find_actors(void) {
    const struct machine *m = &run->machine;
    actor_count = 0;
    for (uint32_t k = 0; k < m->thread_count; k++)
        if (is_enabled(run, k))
            actors[actor_count++] = k;
    if (m->requested)
        actors[actor_count++] = DMA;
    for (uint32_t j = 0; j < run->raise_count; j++)
        if (can_raise(run, j))
            actors[actor_count++] = RAISE + j;
}

static uint32_t next_actor(void) {
    if (chance->strategy == WALKS)
        return actors[drawn_below(&dice, actor_count)];
    return highest_of(&priorities, actors, actor_count);
}

static void take(uint32_t actor) {
    if (actor == DMA)
        do_dma(run);
    else if (actor >= RAISE)
        do_raise(run, actor - RAISE);
    else
        begin_turn(run, actor);
    came_at = run->machine.time;
}

/* A thread that was drawn where it had been left goes past that point. */
static bool was_drawn_here(void) { return chance->strategy == WALKS && run->machine.time == came_at; }

/* A walk may end a chunk before an SC too. */
static void find_actors_at_point(void) {
    find_actors();
    if (chance->strategy == WALKS && is_at_sure_sc(run))
        actors[actor_count++] = CUT;
}

/* Whether the current thread goes past the stop, which is a point if something else could come. */
static bool goes_past(void) {
    find_actors_at_point();
    if (actor_count == 1)
        return true;
    points = passed + 1;
    if (chance->strategy == PRIORITIES)
        lower_at(&priorities, points, run->current);
    uint32_t current = run->current, next = was_drawn_here() ? current : next_actor();
    if (next == current) {
        passed++;
        return true;
    }
    end_turn(run, FORCED);
    take(next == CUT ? current : next);
    return false;
}

/* The turn has ended for nothing. */
static void note_turn_end(enum stop stop) {
    static const enum turn_end ends[] = {[AT_STOP] = STOPPED, [AT_WAIT] = WAITS, [AT_SPENT] = SPENT};
    if (stop == AT_SPENT) {
        had_its_steps = true;
        lower_below_all(&priorities, run->current);
    }
    end_turn(run, ends[stop]);
}

/* Threads that are blocked go on to where they really wait, so that a walk can show that it is an end. */
static enum result judge(void) {
    enum leaf leaf;
    if (some_are_blocked(run)) {
        learn(false);
        try_locks(run);
    }
    find_actors();
    if (actor_count > 0) {
        chances->limited++;
        return IS_GOOD;
    }
    leaf = leaf_of(run);
    note_end(&run->machine, 0);
    chances->ended += leaf == ALL_ENDED;
    chances->hung += leaf != ALL_ENDED;
    return ends_badly(run, bad) ? IS_BAD : IS_GOOD;
}

/* No thread has a turn. */
static bool comes_next(void) {
    find_actors();
    if (actor_count > 0)
        take(next_actor());
    return actor_count > 0;
}

static enum result go_to_end(void) {
    for (bool past = false;;) {
        while (run->current == NO_ONE) {
            if (is_bad_already(run, bad))
                return IS_BAD;
            if (!comes_next())
                return judge();
            past = false;
        }
        enum stop stop = go_on(run, past);
        if (stop == AT_LIMIT) {
            chances->limited++;
            return IS_GOOD;
        }
        past = (stop == AT_PLACE || stop == AT_INTERRUPTIBLE) && goes_past();
        if (stop != AT_PLACE && stop != AT_INTERRUPTIBLE)
            note_turn_end(stop);
    }
}

/* More points to draw from than any run has had, and some to spare, so that this need not change often. */
static uint64_t enough_points(void) { return points < chances->points ? chances->points : points + points / 8 + 2; }

/* What the run has shown is known from now on. */
static void note_run(uint32_t known) {
    uint32_t count = run->machine.thread_count + run->raise_count + (run->machine.dmas_done > 0);
    bool more = knowledge() != known || enough_points() > chances->points || count > chances->actors;
    chances->tries++;
    chances->alike = more ? 0 : chances->alike + 1;
    chances->spent += had_its_steps;
    chances->points = enough_points();
    if (count > chances->actors)
        chances->actors = count;
}

static enum result try_once(void) {
    uint32_t known = knowledge();
    dice = dice_of(chance->seed, chances->tries);
    draw_priorities(&priorities, chance->depth, chances->points, &dice);
    points = passed = 0;
    had_its_steps = false;
    learn(true);
    start_run(run);
    enum result result = go_to_end();
    note_run(known);
    return result;
}

enum finish try_by_chance(struct run *r, const struct condition *bad_, const struct chance *chance_, struct chances *chances_) {
    double ends_at = now_seconds() + chance_->seconds;
    run = r;
    bad = bad_;
    chance = chance_;
    chances = chances_;
    every_shared_word_is_a_place(run->all_places || run->raise_count > 0);
    run->minds_marks = !run->all_places && run->raise_count == 0;
    learn(true);
    send_scouts(run, chance->seconds / 10);
    chances->points = 2;
    while (chances->tries < chance->tries) {
        if (is_interrupted())
            return INTERRUPTED;
        if (now_seconds() > ends_at)
            return OUT_OF_TIME;
        if (try_once() == IS_BAD)
            return FOUND;
    }
    return OUT_OF_TRIES;
}
