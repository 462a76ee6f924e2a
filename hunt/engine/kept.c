#include "kept.h"

#include "segments.h"

#include <string.h>

enum { MOST_KEPT = 1000 };

struct kept_run {
    struct run run;
    struct turn last; /* of its turns */
    struct kept_segments segments;
};

static _Thread_local struct kept_run *kept[MOST_KEPT + 1]; /* and one at a run's end */
static _Thread_local size_t count;
static size_t most = MOST_KEPT;

void keep_at_most(size_t runs) { most = runs < MOST_KEPT ? runs : MOST_KEPT; }

bool can_keep(void) { return count < most; }

/* Without threads that there aren't, which are most of a run. */
static void copy_run(struct run *to, const struct run *from) {
    memcpy(to, from, offsetof(struct run, machine.threads) + from->machine.thread_count * sizeof from->machine.threads[0]);
}

void keep_run(const struct run *r) {
    if (kept[count] == NULL)
        kept[count] = room(1, sizeof **kept);
    struct kept_run *k = kept[count++];
    copy_run(&k->run, r);
    k->last = r->turns[r->turn_count - 1];
    keep_segments(&k->segments);
}

static void take_back_memory(struct machine *m, size_t journal_length) {
    while (m->journal_length > journal_length) {
        struct stored *s = &m->journal[--m->journal_length];
        memcpy(m->memory + s->address, &s->old, 4);
    }
}

/* What has grown meanwhile isn't given back. */
static void leave_room(struct run *kept, const struct run *r) {
    kept->turns = r->turns;
    kept->turn_room = r->turn_room;
    kept->machine.journal = r->machine.journal;
    kept->machine.journal_room = r->machine.journal_room;
    kept->machine.console = r->machine.console;
    kept->machine.console_room = r->machine.console_room;
}

/* Turns before the last one haven't changed. */
void take_back_run(struct run *r) {
    struct kept_run *k = kept[count - 1];
    take_back_memory(&r->machine, k->run.machine.journal_length);
    leave_room(&k->run, r);
    copy_run(r, &k->run);
    r->turns[r->turn_count - 1] = k->last;
    take_back_segments(&k->segments);
}

void drop_run(void) { count--; }
