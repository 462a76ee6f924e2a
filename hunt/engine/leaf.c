#include "leaf.h"

#include "ends.h"
#include "kept.h"
#include "segments.h"
#include "stuck.h"
#include "whole.h"

enum leaf leaf_of(struct run *r) {
    bool pure = true;
    if (live_count(r) == 0)
        return ALL_ENDED;
    for (uint32_t k = 0; k < r->machine.thread_count; k++)
        pure = pure && (r->machine.threads[k].status != LIVE || waiting_of(r, k) != WAITS_WITH_STORES);
    return pure ? ALL_WAIT : COMES_AGAIN;
}

static bool all_wait(struct run *run) {
    for (uint32_t k = 0; k < run->machine.thread_count; k++)
        if (is_enabled(run, k))
            return false;
    return true;
}

static bool judged_bad(struct run *run) {
    enum leaf leaf = leaf_of(run);
    if (!all_wait(run)) { /* a thread that tried its lock has come to no loop yet */
        own.counts.limited++;
        return false;
    }
    note_end(&run->machine, whole.tally->bound);
    own.counts.ended += leaf == ALL_ENDED;
    own.counts.waited += leaf == ALL_WAIT;
    own.counts.repeated += leaf == COMES_AGAIN;
    return ends_badly(run, whole.bad);
}

/* So that a walk can show that it is an end, threads that are blocked go on to where they really wait. */
bool leaf_is_bad(struct run *run) {
    if (!some_are_blocked(run))
        return judged_bad(run);
    keep_run(run);
    learn(false); /* what comes now is for the log alone */
    try_locks(run);
    bool bad = judged_bad(run);
    if (!bad) {
        take_back_run(run);
        learn(true);
    }
    drop_run();
    return bad;
}
