#include "inside.h"
#include "operations.h"
#include "segments.h"
#include "stacks.h"

/* Parts of the loop below, where a call would cost a tenth. */
#define PART __attribute__((always_inline)) static inline

/* A thread within plain instructions. Its pc is kept apart from it. */
struct plain {
    struct machine *machine;
    struct thread *thread;
    uint32_t number, context, pc;
};

PART bool goes_to(struct plain *p, uint32_t pc) {
    if (pc % 4)
        return false;
    p->pc = pc;
    return true;
}

PART bool branches(struct plain *p, bool is_taken, uint32_t value) { return goes_to(p, is_taken ? p->pc + value : p->pc + 4); }

PART bool jumps(struct plain *p, uint32_t rd, uint32_t pc) {
    uint32_t after = p->pc + 4;
    if (!goes_to(p, pc))
        return false;
    p->thread->x[rd] = after;
    p->thread->x[0] = 0;
    return true;
}

PART bool goes_on_with(struct plain *p, uint32_t rd, uint32_t v) {
    p->thread->x[rd] = v;
    p->thread->x[0] = 0;
    p->pc += 4;
    return true;
}

PART bool is_plain_access(const struct plain *p, uint32_t address, uint32_t width) {
    return address < p->machine->setup->size && address % width == 0 && !is_place_word(address);
}

PART bool loads(struct plain *p, const struct code *c, uint32_t address) {
    if (!is_plain_access(p, address, width_of(c->operation)))
        return false;
    if (!is_known_load(touchers_of(address), p->context))
        note_load(p->context, address);
    return goes_on_with(p, c->rd, loaded(p->machine, address, c->operation));
}

PART bool stores(struct plain *p, const struct code *c, uint32_t address) {
    if (!is_plain_access(p, address, width_of(c->operation)))
        return false;
    if (!is_known_store(touchers_of(address), p->context))
        note_store(p->context, address);
    put_word(p->machine, address, stored(word_at(p->machine, address), address, c->operation, p->thread->x[c->rs2]));
    p->pc += 4;
    return true;
}

/* False: a jump that faults, or an access that isn't plain, and nothing is done. */
PART bool did(struct plain *p, const struct code *c) {
    uint32_t a = p->thread->x[c->rs1], b = p->thread->x[c->rs2], value = (uint32_t)c->value;
    switch (c->operation) {
    case LUI: return goes_on_with(p, c->rd, value);
    case AUIPC: return goes_on_with(p, c->rd, p->pc + value);
    case JAL: return jumps(p, c->rd, p->pc + value);
    case JALR: return jumps(p, c->rd, (a + value) & ~1u);
    case BEQ: return branches(p, a == b, value);
    case BNE: return branches(p, a != b, value);
    case BLT: return branches(p, (int32_t)a < (int32_t)b, value);
    case BGE: return branches(p, (int32_t)a >= (int32_t)b, value);
    case BLTU: return branches(p, a < b, value);
    case BGEU: return branches(p, a >= b, value);
    case ADDI: return goes_on_with(p, c->rd, a + value);
    case SLTI: return goes_on_with(p, c->rd, (int32_t)a < (int32_t)value);
    case SLTIU: return goes_on_with(p, c->rd, a < value);
    case XORI: return goes_on_with(p, c->rd, a ^ value);
    case ORI: return goes_on_with(p, c->rd, a | value);
    case ANDI: return goes_on_with(p, c->rd, a & value);
    case SLLI: return goes_on_with(p, c->rd, a << (value & 31));
    case SRLI: return goes_on_with(p, c->rd, a >> (value & 31));
    case ADD: return goes_on_with(p, c->rd, a + b);
    case SUB: return goes_on_with(p, c->rd, a - b);
    case FENCE: return goes_to(p, p->pc + 4);
    case LB: case LH: case LW: case LBU: case LHU: return loads(p, c, a + value);
    case SB: case SH: case SW: return stores(p, c, a + value);
    default: return goes_on_with(p, c->rd, computed(c->operation, a, c->operation <= SRAI ? value : b));
    }
}

static struct plain plain_of(struct machine *m, uint32_t number) {
    return (struct plain){m, &m->threads[number], number, context_of(m, number), m->threads[number].pc};
}

/* An instruction that touches no memory and is no serial one, nor a jump that faults. */
void run_local(struct machine *m, uint32_t number) {
    struct plain p = plain_of(m, number);
    m->time++;
    did(&p, code_at(m, p.pc));
    p.thread->pc = p.pc;
}

PART bool is_at(const struct thread *mark, const struct plain *p) {
    return p->pc == mark->pc && memcmp(p->thread->x, mark->x, sizeof mark->x) == 0;
}

/* Whether sp, which is another than it was, is below the stack. */
PART bool is_below(struct stretch *stretch, const struct thread *t) {
    stretch->is_below = stretch->stacks->first_tp != 0 && is_below_stack(stretch->stacks, t);
    return stretch->is_below;
}

uint64_t run_plain(struct machine *m, uint32_t number, struct stretch *stretch) {
    struct plain p = plain_of(m, number);
    const struct code *code = m->code;
    uint32_t size = m->setup->size, now = changes_begun() + 1, sp = p.thread->x[SP];
    uint64_t count = 0;
    stretch->is_below = false;
    while (count < stretch->most && p.pc < size && code[p.pc / 4].plain == now && did(&p, &code[p.pc / 4])) {
        count++;
        if (p.thread->x[SP] != sp && is_below(stretch, p.thread))
            break;
        sp = p.thread->x[SP];
        if (is_at(stretch->mark, &p))
            break;
    }
    p.thread->pc = p.pc;
    m->time += count;
    return count;
}
