#include "worker.h"

#include "limit.h"
#include "segments.h"
#include "tree.h"
#include "trial.h"
#include "whole.h"
#include "work.h"

static _Thread_local struct run *run;

/* One of the crew has a run of its own, with the same options. */
static void take_run_like(const struct run *r) {
    if (run == NULL) {
        run = room(1, sizeof *run);
        start_machine(&run->machine, r->machine.setup);
    }
    struct run mine = *run;
    *run = *r;
    run->machine = mine.machine;
    run->turns = mine.turns;
    run->turn_room = mine.turn_room;
}

/* One of the crew begins. Whoever began the search has its run already. */
static void get_ready(void) {
    if (crew_number() == 0)
        run = whole.first_run;
    else
        take_run_like(&whole.as_begun);
    learn(true);
}

static void meanwhile(void) {
    if (must_come_back())
        stop_work();
}

void work(void) {
    static _Thread_local struct list some, untried;
    get_ready();
    while (take_work(&some, meanwhile)) {
        enum result result = try_some(run, &some);
        if (result != IS_DONE)
            stop_work();
        if (result == IS_BAD)
            has_found(run);
        untried.count = 0;
        put_back(&untried);
        give_back(&untried);
    }
    hand_in();
}
