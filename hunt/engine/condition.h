/* What a bad end is: any of some cases, each of which holds if all its atoms do. */
#ifndef CONDITION_H
#define CONDITION_H

#include "machine.h"

enum atom_kind { EXITS, FAULTS, LIVES, WORD_IS, CONSOLE_IS, CONSOLE_HAS, STUCK, WORD_IS_EVER, OVERRUNS };
enum comparison {
    EQUAL, UNEQUAL, LESS, MORE, AT_MOST, AT_LEAST, SIGNED_LESS, SIGNED_MORE, SIGNED_AT_MOST, SIGNED_AT_LEAST
};

struct atom {
    enum atom_kind kind;
    enum comparison comparison;
    uint32_t thread; /* or ANYONE */
    uint32_t value, address;
    uint8_t *bytes;
    uint32_t length;
    bool begins_case;
};

struct condition {
    struct atom *atoms;
    size_t count;
};

/* At an end, where nothing goes on; a thread that is live counts as stuck. */
bool holds_at_end(const struct condition *c, const struct machine *m);
/* Likewise, without the cases that need a thread to be stuck. */
bool holds_of_others(const struct condition *c, const struct machine *m);
/* Whether a thread is live that the condition wants to be stuck. */
bool some_is_stuck(const struct condition *c, const struct machine *m);
/* Where it holds already and whatever comes: of exits and faults alone. */
bool holds_for_good(const struct condition *c, const struct machine *m);
/* At a moment, right after a store: of words that must never be so, alone. */
bool holds_now(const struct condition *c, const struct machine *m);

#endif
