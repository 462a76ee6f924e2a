#include "condition.h"

#include <string.h>

static bool compares(uint32_t v, enum comparison comparison, uint32_t w) {
    if (comparison >= SIGNED_LESS)
        return compares(v ^ 1u << 31, comparison - SIGNED_LESS + LESS, w ^ 1u << 31);
    switch (comparison) {
    case EQUAL: return v == w;
    case UNEQUAL: return v != w;
    case LESS: return v < w;
    case MORE: return v > w;
    case AT_MOST: return v <= w;
    default: return v >= w;
    }
}

static bool holds_of_thread(const struct atom *a, const struct thread *t) {
    switch (a->kind) {
    case EXITS: return t->status == EXITED && compares(t->code, a->comparison, a->value);
    case FAULTS: return t->status == FAULTED && compares(t->code, a->comparison, a->value);
    default: return t->status == LIVE;
    }
}

static bool console_has(const struct atom *a, const struct machine *m) {
    for (uint32_t at = 0; at + a->length <= m->devices.console_length; at++)
        if (memcmp(m->console + at, a->bytes, a->length) == 0)
            return true;
    return false;
}

static bool console_is(const struct atom *a, const struct machine *m) {
    return m->devices.console_length == a->length && memcmp(m->console, a->bytes, a->length) == 0;
}

static bool holds(const struct atom *a, const struct machine *m) {
    switch (a->kind) {
    case WORD_IS:
    case WORD_IS_EVER: return compares(word_at(m, a->address), a->comparison, a->value);
    case CONSOLE_IS: return console_is(a, m) == (a->comparison == EQUAL);
    case CONSOLE_HAS: return console_has(a, m);
    default:
        for (uint32_t k = 0; k < m->thread_count; k++)
            if ((a->thread == ANYONE || a->thread == k) && holds_of_thread(a, &m->threads[k]))
                return true;
        return false;
    }
}

static bool is_of_moment(const struct atom *a) { return a->kind == WORD_IS_EVER || a->kind == OVERRUNS; }

/* Which atoms may hold: those of an end, these but those of a thread that is stuck, those that last, or those of words at a moment. */
enum counted { ALL_COUNT, OTHERS_COUNT, LASTING_COUNT, MOMENTS_COUNT };

static bool counts(const struct atom *a, enum counted counted) {
    switch (counted) {
    case ALL_COUNT: return !is_of_moment(a);
    case OTHERS_COUNT: return !is_of_moment(a) && a->kind != STUCK;
    case MOMENTS_COUNT: return a->kind == WORD_IS_EVER;
    default: return a->kind == EXITS || a->kind == FAULTS;
    }
}

static bool some_case_holds(const struct condition *c, const struct machine *m, enum counted counted) {
    bool all = false;
    for (size_t j = 0; j < c->count; j++) {
        if (c->atoms[j].begins_case) {
            if (all)
                return true;
            all = true;
        }
        all = all && counts(&c->atoms[j], counted) && holds(&c->atoms[j], m);
    }
    return all;
}

bool holds_at_end(const struct condition *c, const struct machine *m) { return some_case_holds(c, m, ALL_COUNT); }

bool holds_of_others(const struct condition *c, const struct machine *m) { return some_case_holds(c, m, OTHERS_COUNT); }

bool holds_for_good(const struct condition *c, const struct machine *m) { return some_case_holds(c, m, LASTING_COUNT); }

bool holds_now(const struct condition *c, const struct machine *m) { return some_case_holds(c, m, MOMENTS_COUNT); }

bool some_is_stuck(const struct condition *c, const struct machine *m) {
    for (size_t j = 0; j < c->count; j++)
        if (c->atoms[j].kind == STUCK && holds(&c->atoms[j], m))
            return true;
    return false;
}
