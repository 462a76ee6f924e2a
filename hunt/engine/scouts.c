#define _POSIX_C_SOURCE 200809L
#include "scouts.h"

#include "segments.h"

#include <time.h>

double now_seconds(void) {
    struct timespec t;
    clock_gettime(CLOCK_MONOTONIC, &t);
    return (double)t.tv_sec + 1e-9 * (double)t.tv_nsec;
}

static uint64_t drawn(uint64_t *state) {
    *state ^= *state << 13;
    *state ^= *state >> 7;
    *state ^= *state << 17;
    return *state;
}

static uint32_t enabled_threads(struct run *r, uint32_t *threads) {
    uint32_t count = 0;
    for (uint32_t k = 0; k < r->machine.thread_count; k++)
        if (is_enabled(r, k))
            threads[count++] = k;
    return count;
}

static void take_turn(struct run *r, uint32_t thread, uint64_t steps) {
    begin_turn(r, thread);
    go_steps(r, steps);
    end_turn(r, FORCED);
}

static void scout(struct run *r, uint64_t *state) {
    enum { MOST_TURNS = 4096 };
    struct machine *m = &r->machine;
    uint32_t threads[MOST_THREADS];
    start_run(r);
    for (uint32_t turn = 0; turn < MOST_TURNS && m->time < r->step_limit && !has_news() && !r->met; turn++) {
        uint32_t count = enabled_threads(r, threads);
        if (m->requested && (count == 0 || drawn(state) % 16 == 0))
            do_dma(r);
        else if (count == 0)
            return;
        else {
            uint32_t thread = threads[drawn(state) % count];
            take_turn(r, thread, 1 + drawn(state) % (1u << drawn(state) % 8));
        }
        for (uint32_t j = 0; j < r->raise_count; j++)
            if (drawn(state) % 16 == 0 && can_raise(r, j))
                do_raise(r, j);
    }
}

static int enough = 100;

void set_scouts(int idle_runs) { enough = idle_runs; }

void send_scouts(struct run *r, double seconds) {
    double started = now_seconds();
    uint64_t random = 0x9E3779B97F4A7C15u;
    for (int idle = 0; idle < enough && now_seconds() - started < seconds; idle++) {
        scout(r, &random);
        if (has_news())
            idle = 0;
    }
}
