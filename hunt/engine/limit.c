#include "limit.h"

#include "saving.h"
#include "scouts.h"
#include "seen.h"
#include "whole.h"
#include "work.h"

static _Atomic bool interrupted;

void interrupt_search(void) { interrupted = true; }

bool is_interrupted(void) { return interrupted; }

bool limit_is_met(enum finish *which) {
    if (interrupted)
        *which = INTERRUPTED;
    else if (whole.tries.value >= whole.limits->tries)
        *which = OUT_OF_TRIES;
    else if (seen_is_full())
        *which = OUT_OF_STATES;
    else if (now_seconds() > whole.ends_at)
        *which = OUT_OF_TIME;
    else
        return false;
    return true;
}

bool must_come_back(void) {
    enum finish limit;
    if (crew_number() == 0 && progress_is_due(now_seconds() - whole.began_at)) {
        struct standing s = standing();
        tell_progress(&s);
    }
    return is_stopped() || limit_is_met(&limit) || save_is_due();
}
