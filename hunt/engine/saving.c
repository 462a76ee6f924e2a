#include "saving.h"

#include "saved.h"
#include "scouts.h"
#include "seen.h"
#include "whole.h"
#include "work.h"

#include <errno.h>
#include <stdio.h>
#include <stdlib.h>
#include <string.h>

static const char *saved_in, *resumed_from;
static double save_every, saved_at, saving_took;

void save_in(const char *name, double every) {
    saved_in = name;
    save_every = every;
}

void resume_from(const char *name) { resumed_from = name; }

bool is_to_be_saved(void) { return saved_in != NULL; }

bool is_to_be_resumed(void) { return resumed_from != NULL; }

void begin_saving(double now) { saved_at = now; }

/* A twentieth of the time is for saving, at most. */
bool save_is_due(void) {
    return saved_in != NULL && now_seconds() - saved_at > (save_every > 20 * saving_took ? save_every : 20 * saving_took);
}

static uint32_t memory_size(void) { return whole.as_begun.machine.setup->size; }

void save(void) {
    double began = now_seconds();
    struct stand s = {.tally = *whole.tally, .tries = whole.tries.value, .seconds = began - whole.began_at, .of_bound = whole.of_bound,
                      .left = *work_left(), .later = whole.later};
    s.told = (char *)lines_told(&s.told_length);
    if (save_stand(saved_in, &s, memory_size()))
        printf("saved %llu\n", (unsigned long long)s.tries);
    else
        printf("unsaved %s\n", strerror(errno));
    fflush(stdout);
    saved_at = now_seconds();
    saving_took = saved_at - began;
}

void go_on_from_file(void) {
    struct stand s = {.tries = 0};
    forget_items();
    work_left()->count = 0;
    s.left = *work_left();
    s.later = whole.later;
    take_stand(resumed_from, &s, memory_size());
    *whole.tally = s.tally;
    whole.tries.value = s.tries;
    whole.began_at -= s.seconds;
    *work_left() = s.left;
    whole.later = s.later;
    whole.of_bound = s.of_bound;
    tell_again(s.told, s.told_length);
    printf("resumed %u tries %llu states %llu\n", s.tally.bound, (unsigned long long)s.tries, (unsigned long long)seen_count());
    free(s.told);
}
