#include "inside.h"
#include "operations.h"
#include "sharing.h"

static bool is_taken(const struct thread *t, const struct code *c) {
    uint32_t a = t->x[c->rs1], b = t->x[c->rs2];
    switch (c->operation) {
    case BEQ: return a == b;
    case BNE: return a != b;
    case BLT: return (int32_t)a < (int32_t)b;
    case BGE: return (int32_t)a >= (int32_t)b;
    case BLTU: return a < b;
    default: return a >= b;
    }
}

static struct next fault(uint32_t cause) { return (struct next){.kind = FAULT, .cause = cause}; }

static struct next next_access(struct machine *m, const struct thread *t, const struct code *c) {
    uint32_t address = t->x[c->rs1] + (uint32_t)c->value;
    bool loads = only_loads(c->operation);
    if (address % width_of(c->operation))
        return fault(loads ? 4 : 6);
    if (c->operation == LW && (address == MOMENT_WORD || address == INPUT_WORD))
        return (struct next){.kind = DEVICE_LOAD, .address = address};
    if (c->operation == SW && address == CONSOLE_WORD)
        return (struct next){.kind = DEVICE_STORE, .address = address};
    if (address >= m->setup->size)
        return fault(loads ? 5 : 7);
    return (struct next){.kind = MEMORY, .address = address};
}

struct next next_of(struct machine *m, const struct thread *t) {
    if (t->pc >= m->setup->size)
        return fault(1);
    const struct code *c = code_at(m, t->pc);
    if (c->operation >= LB)
        return next_access(m, t, c);
    switch (c->operation) {
    case ILLEGAL: return fault(2);
    case ECALL: return (struct next){.kind = CALL};
    case EBREAK: return (struct next){.kind = BREAK};
    case JAL: return (t->pc + (uint32_t)c->value) % 4 ? fault(0) : (struct next){.kind = LOCAL};
    case JALR: return (t->x[c->rs1] + (uint32_t)c->value) & 2 ? fault(0) : (struct next){.kind = LOCAL};
    case BEQ: case BNE: case BLT: case BGE: case BLTU: case BGEU:
        return is_taken(t, c) && (t->pc + (uint32_t)c->value) % 4 ? fault(0) : (struct next){.kind = LOCAL};
    }
    return (struct next){.kind = LOCAL};
}

void put_register(struct thread *t, uint32_t r, uint32_t v) {
    if (r != 0)
        t->x[r] = v;
}

static uint32_t swapped(int operation, uint32_t old, uint32_t b) {
    switch (operation) {
    case AMOADD: return old + b;
    case AMOSWAP: return b;
    case AMOXOR: return old ^ b;
    case AMOOR: return old | b;
    case AMOAND: return old & b;
    case AMOMIN: return (int32_t)old <= (int32_t)b ? old : b;
    case AMOMAX: return (int32_t)old >= (int32_t)b ? old : b;
    case AMOMINU: return old <= b ? old : b;
    default: return old >= b ? old : b;
    }
}

void run_store(struct machine *m, uint32_t number, uint32_t address, const struct code *c) {
    note_store(context_of(m, number), address);
    put_word(m, address, stored(word_at(m, address), address, c->operation, m->threads[number].x[c->rs2]));
}

/* The instructions from the LR on, which are one chunk. */
uint64_t reservation_age(const struct machine *m, const struct thread *t) {
    uint64_t age = m->time - m->reserved_at + 1;
    return t->reservation != NO_RESERVATION && age < m->setup->longest_chunk ? age : 0;
}

bool has_reserved(const struct machine *m, const struct thread *t, uint32_t address) {
    return t->reservation == address && reservation_age(m, t) > 0;
}

/* An instruction that touches a word of memory. `load`, where it is asked for, takes what an account tells of it. */
void run_access(struct machine *m, uint32_t number, uint32_t address, struct served *load) {
    struct thread *t = &m->threads[number];
    const struct code c = *code_at(m, t->pc);
    uint32_t context = context_of(m, number), result = 0;
    bool loads = c.operation <= LHU || c.operation == LR || c.operation > SC, reserved = has_reserved(m, t, address);
    m->time++;
    if (loads) {
        note_load(context, address);
        result = loaded(m, address, c.operation);
    }
    if (c.operation >= SB && c.operation <= SW)
        run_store(m, number, address, &c);
    else if (c.operation == LR) {
        t->reservation = address;
        m->reserved_at = m->time;
    } else if (c.operation == SC) {
        result = !reserved;
        t->reservation = NO_RESERVATION;
        if (result == 0)
            run_store(m, number, address, &c);
    } else if (c.operation > SC) {
        note_store(context, address);
        put_word(m, address, swapped(c.operation, result, t->x[c.rs2]));
    }
    if (c.operation < SB || c.operation > SW)
        put_register(t, c.rd, result);
    t->pc += 4;
    if (load != NULL)
        *load = (struct served){.loads = loads, .load_address = address, .load_value = result};
}

/* Of a thread whose next instruction was looked at. */
static int operation_of(const struct machine *m, const struct thread *t) { return m->code[t->pc / 4].operation; }

bool is_load_reserved(const struct machine *m, const struct thread *t) { return operation_of(m, t) == LR; }

bool is_store(const struct machine *m, const struct thread *t) { return !only_loads(operation_of(m, t)); }

bool is_store_conditional(const struct machine *m, const struct thread *t) { return operation_of(m, t) == SC; }
