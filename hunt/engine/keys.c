#include "keys.h"

#include "crew.h"
#include "seen.h"
#include "segments.h"

static _Thread_local struct hash *turn_keys;
static _Thread_local size_t turn_key_count, turn_key_room;
static _Thread_local bool turn_goes_round; /* it came to one of them again, so it comes to no new ones any more */

struct hash key_of(struct hash state, uint32_t thread, enum key how) { return sum(state, mixed(thread, how)); }

struct hash whole_state(struct run *run) { return sum(state_of(run), segments()); }

struct hash state_after_chunk(struct run *run) {
    struct thread *t = &run->machine.threads[run->current];
    uint32_t reservation = t->reservation;
    t->reservation = NO_RESERVATION;
    struct hash state = whole_state(run);
    t->reservation = reservation;
    return state;
}

void keep_key(struct hash key) {
    if (turn_key_count == turn_key_room) {
        turn_key_room = turn_key_room ? 2 * turn_key_room : 256;
        turn_keys = more_room(turn_keys, turn_key_room, sizeof *turn_keys);
    }
    turn_keys[turn_key_count++] = key;
}

bool is_in_turn(struct hash key) {
    for (size_t j = turn_key_count; j > 0 && !turn_goes_round; j--)
        turn_goes_round = same_hash(turn_keys[j - 1], key);
    return turn_goes_round;
}

void forget_turn(void) {
    turn_key_count = 0;
    turn_goes_round = false;
}

void close_turn(void) {
    delay("close");
    for (; turn_key_count > 0; turn_key_count--)
        turn_has_ended(turn_keys[turn_key_count - 1]);
}
