#include "run.h"

#include "crew.h"
#include "segments.h"
#include "sharing.h"

#include <string.h>

void start_run(struct run *r) {
    reset_machine(&r->machine);
    memset(r->seats, 0, sizeof r->seats);
    r->raised = 0;
    r->met = false;
    r->turn_count = 0;
    r->current = NO_ONE;
}

static void set_mark(struct run *r) {
    struct machine *m = &r->machine;
    r->mark = m->threads[r->current];
    r->mark_memory = m->memory_hash;
    r->mark_stores = m->stores;
    r->mark_events = m->events;
    r->mark_reservation_age = reservation_age(m, &r->mark);
    r->mark_age = 0;
}

static struct turn *add_turn(struct run *r, uint32_t actor) {
    if (r->turn_count == r->turn_room) {
        r->turn_room = r->turn_room ? 2 * r->turn_room : 256;
        r->turns = more_room(r->turns, r->turn_room, sizeof *r->turns);
    }
    struct turn *t = &r->turns[r->turn_count++];
    *t = (struct turn){.actor = (uint8_t)actor, .end = FORCED};
    return t;
}

static struct turn *present(struct run *r) { return &r->turns[r->turn_count - 1]; }

void begin_turn(struct run *r, uint32_t actor) {
    add_turn(r, actor);
    r->seats[actor] = (struct hash){0, 0};
    r->current = actor;
    r->still_turn = 0;
    r->spent_at = r->turn_limit;
    r->mark_power = 1;
    set_mark(r);
}

static struct hash of_thread(const struct machine *m, uint32_t number) {
    struct hash t = hash_of_thread(&m->threads[number]);
    return mixed(t.a + number, t.b + reservation_age(m, &m->threads[number]));
}

static struct hash of_others(const struct run *r) {
    const struct machine *m = &r->machine;
    struct hash h = sum(hash_of_rest(m), mixed(r->raised, 77));
    for (uint32_t k = 0; k < m->thread_count; k++)
        if (k != r->current)
            h = sum(h, of_thread(m, k));
    return h;
}

/* Of the whole state, as far as it matters for what can come. */
struct hash state_of(struct run *r) {
    const struct machine *m = &r->machine;
    if (r->current == NO_ONE)
        return sum(m->memory_hash, of_others(r));
    if (r->still_turn != r->turn_count || r->still_events != m->events) {
        r->still = of_others(r);
        r->still_turn = r->turn_count;
        r->still_events = m->events;
    }
    return sum(sum(m->memory_hash, r->still), of_thread(m, r->current));
}

void end_turn(struct run *r, enum turn_end end) {
    if (r->current == NO_ONE)
        return;
    present(r)->end = end;
    if (end == WAITS) {
        present(r)->target = state_of(r);
        present(r)->target_pc = r->machine.threads[r->current].pc;
    }
    end_chunk(&r->machine.threads[r->current]);
    r->current = NO_ONE;
}

static bool is_sure_sc(const struct run *r, const struct thread *t, struct next next) {
    return next.kind == MEMORY && is_store_conditional(&r->machine, t) && has_reserved(&r->machine, t, next.address);
}

bool is_at_sure_sc(struct run *r) {
    const struct thread *t = &r->machine.threads[r->current];
    return is_sure_sc(r, t, next_of(&r->machine, t));
}

static bool is_acquire(const struct run *r, const struct thread *t) {
    const struct setup *s = r->machine.setup;
    return r->minds_marks && s->acquires != NULL && t->pc < s->size && s->acquires[t->pc / 4];
}

static bool is_blocked_at(const struct run *r, const struct thread *t, struct next next) {
    return is_acquire(r, t) && next.kind == MEMORY && word_at(&r->machine, next.address) != 0;
}

static bool is_blocked(struct run *r, const struct thread *t) {
    return t->status == LIVE && is_acquire(r, t) && is_blocked_at(r, t, next_of(&r->machine, t));
}

static bool is_place(const struct run *r, const struct thread *t, struct next next) {
    switch (next.kind) {
    case LOCAL:
        return is_place_word(t->pc);
    case MEMORY: /* whoever is left loses the reservation, so neither an LR nor an SC that has it can be moved over a switch */
        return is_place_word(next.address) || is_place_word(t->pc) || is_acquire(r, t) || is_load_reserved(&r->machine, t)
               || is_sure_sc(r, t, next);
    case CALL: { /* an interrupt may come before any, and leaves another number in a7 */
        uint32_t call = t->x[17];
        bool is_own = call > HAS_ENDED || call == HANDLER || call == IRET || call == SELF || call == YIELD;
        return !is_own || r->raise_count > 0;
    }
    default:
        return true;
    }
}

bool is_bad_already(const struct run *r, const struct condition *bad) { return r->met || holds_for_good(bad, &r->machine); }

/* After a step or DMA, before which there were so many stores. */
static void look_at_moment(struct run *r, uint64_t stores) {
    if (r->watched != NULL && r->machine.stores != stores)
        r->met = r->met || holds_now(r->watched, &r->machine);
}

/* After a step of the current thread, before which its sp was this. */
static void look_at_stack(struct run *r, uint32_t sp) {
    const struct thread *t = &r->machine.threads[r->current];
    if (r->stacks.first_tp != 0 && t->x[SP] != sp)
        r->met = r->met || is_below_stack(&r->stacks, t);
}

static void do_step(struct run *r, struct next next, bool at_place) {
    struct served served;
    uint64_t stores = r->machine.stores;
    uint32_t sp = r->machine.threads[r->current].x[SP];
    present(r)->steps++;
    if (at_place)
        begin_segment(r->current);
    else
        go_on_in_segment();
    if (next.kind == LOCAL)
        run_local(&r->machine, r->current);
    else if (next.kind == MEMORY)
        run_access(&r->machine, r->current, next.address, NULL);
    else
        serve(&r->machine, r->current, next, &served);
    look_at_moment(r, stores);
    look_at_stack(r, sp);
}

static void take_step(struct run *r, struct next next) {
    do_step(r, next, is_place(r, &r->machine.threads[r->current], next));
}

static bool same_thread(const struct thread *t, const struct thread *u) { return memcmp(t, u, sizeof *t) == 0; }

/* Whether thread and memory are as they were at the mark. */
static bool comes_again(struct run *r) {
    struct machine *m = &r->machine;
    const struct thread *t = &m->threads[r->current];
    if (t->pc == r->mark.pc && same_hash(m->memory_hash, r->mark_memory) && m->events == r->mark_events
        && same_thread(t, &r->mark) && reservation_age(m, t) == r->mark_reservation_age)
        return true;
    if (++r->mark_age == r->mark_power) {
        r->mark_power *= 2;
        set_mark(r);
    }
    return false;
}

static bool is_outside(uint32_t call) { return call >= WRITE && call <= CLOCK; }

/* The current thread is in a loop of so many steps that comes back to each of its states. It does one round, and finds out what the
   loop looks at. A thread that is known to wait isn't run, so nobody would see these touches: the shared words become places'. */
static void look_around(struct run *r, uint64_t length, struct looks *looks) {
    struct machine *m = &r->machine;
    struct thread *t = &m->threads[r->current];
    for (uint64_t j = 0; j < length; j++) {
        struct next next = next_of(m, t);
        if (next.kind == MEMORY) {
            look_at(looks, next.address);
            if (is_shared(next.address))
                make_place(next.address);
        }
        if (is_shared(t->pc) || next.kind == DEVICE_LOAD || (next.kind == CALL && is_outside(t->x[17])))
            looks->at_all = true;
        take_step(r, next);
    }
}

/* It goes on to that state of the loop in which it waits, before the place of the least pc. The answer is how many places it has. */
static uint32_t settle(struct run *r, uint64_t length) {
    struct machine *m = &r->machine;
    struct thread *t = &m->threads[r->current];
    uint64_t best = 0, best_rank = UINT64_MAX;
    uint32_t places = 0;
    for (uint64_t j = 0; j < length; j++) {
        struct next next = next_of(m, t);
        bool at_place = is_place(r, t, next);
        uint64_t rank = (uint64_t)!at_place << 32 | t->pc;
        places += at_place;
        if (rank < best_rank) {
            best_rank = rank;
            best = j;
        }
        take_step(r, next);
    }
    for (uint64_t j = 0; j < best; j++)
        take_step(r, next_of(m, t));
    return places;
}

/* Of a thread as it is once it is left. */
static struct hash hash_when_left(struct run *r, uint32_t number) {
    struct thread t = r->machine.threads[number];
    end_chunk(&t);
    struct hash h = hash_of_thread(&t);
    return mixed(h.a + number, h.b);
}

static void keep_loop(struct run *r, uint64_t length, const struct loop *loop) {
    struct machine *m = &r->machine;
    if (how_waits(hash_when_left(r, r->current), m) != IS_UNKNOWN)
        return;
    for (uint64_t j = 0; j < length; j++) {
        keep_waiting(hash_when_left(r, r->current), loop, m);
        take_step(r, next_of(m, &m->threads[r->current]));
    }
}

static void wait_here(struct run *r) {
    bool pure = r->machine.stores == r->mark_stores;
    uint64_t length = r->mark_age + 1;
    struct loop loop = {.looks = {.at_all = !pure}};
    uint32_t before = changes_begun();
    look_around(r, length, &loop.looks);
    delay("around");
    loop.known = knowledge();
    uint32_t places = settle(r, length);
    loop.how = !pure ? WAITS_WITH_STORES : places > 1 ? WAITS_AROUND : WAITS_AT_ONE_PLACE;
    if (crew_size() > 1 && changes_begun() != before) /* a word that was looked at may be shared by now; the search begins again */
        return;
    keep_loop(r, length, &loop);
}

enum waiting waiting_of(struct run *r, uint32_t thread) {
    if (thread == r->current)
        return IS_UNKNOWN;
    if (is_blocked(r, &r->machine.threads[thread]))
        return WAITS_AT_ONE_PLACE;
    if (r->seats[thread].a == 0 && r->seats[thread].b == 0)
        r->seats[thread] = hash_when_left(r, thread);
    return how_waits(r->seats[thread], &r->machine);
}

/* A turn isn't ended for nothing as long as an SC could ask for its reservation. */
static bool is_spent(struct run *r) {
    uint64_t steps = present(r)->steps;
    if (steps < r->spent_at || reservation_age(&r->machine, &r->machine.threads[r->current]) != 0)
        return false;
    r->spent_at = steps + r->turn_limit;
    return true;
}

/* How it is after a step. AT_PLACE means that nothing has ended. */
static enum stop after_step(struct run *r) {
    struct machine *m = &r->machine;
    if (m->threads[r->current].status != LIVE || r->met)
        return AT_STOP;
    if (comes_again(r)) {
        wait_here(r);
        return AT_WAIT;
    }
    if (m->time >= r->step_limit)
        return AT_LIMIT;
    return is_spent(r) ? AT_SPENT : AT_PLACE;
}

static enum stop step_on(struct run *r, struct next next, bool at_place) {
    do_step(r, next, at_place);
    return after_step(r);
}

static uint64_t least(uint64_t a, uint64_t b) { return a < b ? a : b; }

/* After so many steps, or at the mark's pc, it is looked at how it is; before that nothing can be found. */
static uint64_t steps_to_look(struct run *r) {
    uint64_t steps = r->mark_power - r->mark_age, spent = present(r)->steps, time = r->machine.time;
    steps = least(steps, r->spent_at > spent ? r->spent_at - spent : 1);
    return least(steps, r->step_limit > time ? r->step_limit - time : 1);
}

/* Plain steps of the current thread, some at most; how many they were. What is left is to look how it is. */
static uint64_t step_plainly(struct run *r, uint64_t most) {
    struct stretch stretch = {least(most, steps_to_look(r)), &r->mark, &r->stacks, false};
    uint64_t stores = r->machine.stores;
    if (r->met)
        return 0;
    go_on_in_segment();
    uint64_t count = run_plain(&r->machine, r->current, &stretch);
    if (count == 0)
        return 0;
    present(r)->steps += count;
    r->mark_age += count - 1;
    r->met = r->met || stretch.is_below;
    look_at_moment(r, stores);
    return count;
}

static bool is_interruptible(const struct run *r) {
    for (uint32_t j = 0; j < r->raise_count; j++)
        if (r->raises[j].thread == r->current && can_raise(r, j))
            return true;
    return false;
}

/* What is at a place isn't plain. */
enum stop go_on(struct run *r, bool past) {
    enum stop stop;
    for (;; past = false) {
        if (r->raise_count == 0 && !past && step_plainly(r, UINT64_MAX) > 0) {
            if ((stop = after_step(r)) != AT_PLACE)
                return stop;
            continue;
        }
        const struct thread *t = &r->machine.threads[r->current];
        struct next next = next_of(&r->machine, t);
        if (r->met)
            return AT_STOP;
        bool at_place = is_place(r, t, next);
        if (is_blocked_at(r, t, next))
            return AT_WAIT;
        if (!past && at_place)
            return AT_PLACE;
        if (!past && is_interruptible(r))
            return AT_INTERRUPTIBLE;
        if ((stop = step_on(r, next, at_place)) != AT_PLACE)
            return stop;
    }
}

enum stop go_steps(struct run *r, uint64_t steps) {
    enum stop stop;
    for (uint64_t j = 0, plain; j < steps; j += plain > 0 ? plain : 1) {
        if (r->met)
            return AT_STOP;
        plain = step_plainly(r, steps - j);
        if (plain > 0)
            stop = after_step(r);
        else {
            const struct thread *t = &r->machine.threads[r->current];
            struct next next = next_of(&r->machine, t);
            if (is_blocked_at(r, t, next))
                return AT_WAIT;
            stop = step_on(r, next, is_place(r, t, next));
        }
        if (stop != AT_PLACE && stop != AT_SPENT)
            return stop;
    }
    return AT_PLACE;
}

enum stop go_exactly(struct run *r, uint64_t steps) {
    struct machine *m = &r->machine;
    for (uint64_t j = 0; j < steps; j++) {
        if (r->met)
            return AT_STOP;
        if (m->time >= r->step_limit)
            return AT_LIMIT;
        take_step(r, next_of(m, &m->threads[r->current]));
        if (m->threads[r->current].status != LIVE)
            return AT_STOP;
    }
    return AT_PLACE;
}

bool some_are_blocked(struct run *r) {
    for (uint32_t k = 0; k < r->machine.thread_count; k++)
        if (is_blocked(r, &r->machine.threads[k]))
            return true;
    return false;
}

static void go_to_loop(struct run *r, uint32_t thread) {
    begin_turn(r, thread);
    enum stop stop = go_steps(r, r->turn_limit);
    end_turn(r, stop == AT_WAIT ? WAITS : stop == AT_STOP ? STOPPED : SPENT);
}

void try_locks(struct run *r) {
    for (uint32_t k = 0; k < r->machine.thread_count; k++) {
        if (!is_blocked(r, &r->machine.threads[k]))
            continue;
        r->minds_marks = false;
        go_to_loop(r, k);
        r->minds_marks = true;
    }
    /* a loop that stores was known with the memory as it was before */
    for (uint32_t k = 0; k < r->machine.thread_count; k++)
        if (is_enabled(r, k))
            go_to_loop(r, k);
}

bool is_enabled(struct run *r, uint32_t thread) {
    return r->machine.threads[thread].status == LIVE && waiting_of(r, thread) == IS_UNKNOWN;
}

uint32_t live_count(const struct run *r) {
    uint32_t count = 0;
    for (uint32_t k = 0; k < r->machine.thread_count; k++)
        count += r->machine.threads[k].status == LIVE;
    return count;
}

/* The interrupts of one thread come in the order in which they were given. */
bool can_raise(const struct run *r, uint32_t number) {
    const struct raise *raise = &r->raises[number];
    if (r->raised >> number & 1 || raise->thread >= r->machine.thread_count)
        return false;
    for (uint32_t j = 0; j < number; j++)
        if (r->raises[j].thread == raise->thread && !(r->raised >> j & 1))
            return false;
    return can_interrupt(&r->machine.threads[raise->thread]);
}

void do_dma(struct run *r) {
    uint64_t stores = r->machine.stores;
    add_turn(r, DMA)->end = STOPPED;
    do_request(&r->machine);
    look_at_moment(r, stores);
}

void do_raise(struct run *r, uint32_t number) {
    struct turn *t = add_turn(r, RAISE + number);
    *t = (struct turn){.actor = (uint8_t)(RAISE + number), .end = STOPPED, .steps = r->raises[number].thread,
                       .value = r->raises[number].value};
    r->raised |= 1ull << number;
    r->seats[t->steps] = (struct hash){0, 0};
    interrupt(&r->machine, (uint32_t)t->steps, t->value);
}
