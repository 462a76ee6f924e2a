#define _POSIX_C_SOURCE 200809L
#include "stuck.h"

#include "leaf.h"

#include <sys/types.h>
#include <sys/wait.h>
#include <unistd.h>

enum { LONG = 300000, SHORTEST_POWERS = 9 }; /* steps in all, and turns; a turn has up to 2^8 steps */

static uint64_t drawn(uint64_t *state) {
    *state ^= *state << 13;
    *state ^= *state >> 7;
    *state ^= *state << 17;
    return *state;
}

/* Some live thread. */
static uint32_t drawn_thread(const struct run *r, uint64_t *state) {
    uint32_t live[MOST_THREADS], count = 0;
    for (uint32_t k = 0; k < r->machine.thread_count; k++)
        if (r->machine.threads[k].status == LIVE)
            live[count++] = k;
    return live[drawn(state) % count];
}

/* Goes on with threads and lengths of turns that are drawn. Whether the threads that were stuck have ended. */
static bool goes_to_end(struct run *r, const struct condition *bad) {
    uint64_t state = 0x9E3779B97F4A7C15u, until = r->machine.time + LONG;
    r->step_limit = UINT64_MAX;
    r->minds_marks = false;
    for (uint32_t turn = 0; turn < LONG && r->machine.time < until; turn++) {
        if (r->met || !some_is_stuck(bad, &r->machine))
            return true;
        begin_turn(r, drawn_thread(r, &state));
        go_steps(r, 1 + drawn(&state) % (1u << drawn(&state) % SHORTEST_POWERS));
        end_turn(r, FORCED);
    }
    return false;
}

/* It is tried in another process, so nothing of this one changes. */
static bool could_end(struct run *r, const struct condition *bad) {
    int status = 0;
    pid_t child = fork();
    if (child == 0) {
        tell_facts(false); /* nor told any: it has no crew */
        _exit(goes_to_end(r, bad));
    }
    if (child < 0 || waitpid(child, &status, 0) != child || !WIFEXITED(status))
        fail("no process for a run that goes round");
    return WEXITSTATUS(status) != 0;
}

bool ends_badly(struct run *r, const struct condition *bad) {
    if (!holds_at_end(bad, &r->machine))
        return false;
    return leaf_of(r) != COMES_AGAIN || holds_of_others(bad, &r->machine) || !could_end(r, bad);
}
