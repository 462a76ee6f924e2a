#include "stacks.h"

#include "machine.h"

/* A frame may be larger than all that is below a stack, so sp may have gone round. */
bool is_below_stack(const struct stacks *s, const struct thread *t) {
    uint32_t reach = t->x[TP] == s->first_tp ? s->of_first : s->of_others;
    return (int32_t)(t->x[TP] - reach - t->x[SP]) > 0;
}
