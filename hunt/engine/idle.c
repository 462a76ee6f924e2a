#include "idle.h"

enum { LONGEST_ROUND = 256 }; /* states that are looked through for the present one */

void start_idle(struct idle *idle) {
    for (int k = 0; k < MOST_THREADS; k++)
        idle->trails[k].count = 0;
    idle->turn_count = 0;
}

static void add_state(struct trail *t, struct hash state, size_t turn) {
    if (t->count == t->room) {
        t->room = t->room ? 2 * t->room : 256;
        t->states = more_room(t->states, t->room, sizeof *t->states);
        t->turns = more_room(t->turns, t->room, sizeof *t->turns);
    }
    t->states[t->count] = state;
    t->turns[t->count++] = turn;
}

static void begin_trail(struct trail *t, struct hash state, size_t turn) {
    t->count = 0;
    add_state(t, state, turn);
}

static bool is_changed(struct trail *t, const struct machine *m) {
    bool changed = t->stores != m->stores || t->events != m->events;
    t->stores = m->stores;
    t->events = m->events;
    return changed;
}

static void add_turns(struct idle *idle, size_t turn) {
    if (turn >= idle->turn_room) {
        idle->turn_room = 2 * turn + 256;
        idle->kept = more_room(idle->kept, idle->turn_room, sizeof *idle->kept);
    }
    while (idle->turn_count <= turn)
        idle->kept[idle->turn_count++] = 0;
}

/* A thread whose state isn't that of its last step was interrupted, or its chunk has ended with a reservation. */
void note_turn(struct idle *idle, const struct machine *m, uint32_t thread, size_t turn) {
    struct trail *t = &idle->trails[thread];
    struct hash state = hash_of_thread(&m->threads[thread]);
    add_turns(idle, turn);
    is_changed(t, m);
    if (t->count == 0 || !same_hash(t->states[t->count - 1], state))
        begin_trail(t, state, turn);
}

/* The place of the state in the trail, or its count. A reservation isn't taken over from one turn to another. */
static size_t place_in(const struct trail *t, struct hash state, bool reserves, size_t turn) {
    size_t last = t->count > LONGEST_ROUND ? t->count - LONGEST_ROUND : 0;
    for (size_t j = t->count; j > last; j--)
        if (same_hash(t->states[j - 1], state) && !(reserves && t->turns[j - 1] != turn))
            return j - 1;
    return t->count;
}

void note_step(struct idle *idle, const struct machine *m, uint32_t thread, size_t turn) {
    struct trail *t = &idle->trails[thread];
    struct hash state = hash_of_thread(&m->threads[thread]);
    idle->kept[turn]++;
    if (is_changed(t, m)) {
        begin_trail(t, state, turn);
        return;
    }
    size_t place = place_in(t, state, m->threads[thread].reservation != NO_RESERVATION, turn);
    add_state(t, state, turn);
    if (place + 1 == t->count)
        return;
    for (; t->count > place + 1; t->count--)
        idle->kept[t->turns[t->count - 1]]--;
}
