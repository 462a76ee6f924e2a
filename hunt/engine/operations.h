/* What the operations of instructions are, and what they compute. For the files of the machine alone. */
#ifndef OPERATIONS_H
#define OPERATIONS_H

#include "machine.h"

/* Operations, as a word of code is taken apart to. */
enum operation {
    ILLEGAL, LUI, AUIPC, JAL, JALR, BEQ, BNE, BLT, BGE, BLTU, BGEU, ADDI, SLTI, SLTIU, XORI, ORI, ANDI, SLLI, SRLI, SRAI,
    ADD, SUB, SLL, SLT, SLTU, XOR, SRL, SRA, OR, AND, MUL, MULH, MULHSU, MULHU, DIV, DIVU, REM, REMU, FENCE, ECALL, EBREAK,
    LB, LH, LW, LBU, LHU, SB, SH, SW, LR, SC, AMOADD, AMOSWAP, AMOXOR, AMOOR, AMOAND, AMOMIN, AMOMAX, AMOMINU, AMOMAXU
};

static inline bool is_local(int operation) { return operation >= LUI && operation <= FENCE; }

static inline bool is_access(int operation) { return operation >= LB && operation <= SW; }

static inline int32_t extended(uint32_t v, int bits) { return (int32_t)(v << (32 - bits)) >> (32 - bits); }

static inline uint32_t width_of(int operation) {
    switch (operation) {
    case LB: case LBU: case SB: return 1;
    case LH: case LHU: case SH: return 2;
    default: return 4;
    }
}

static inline bool only_loads(int operation) { return (operation >= LB && operation <= LHU) || operation == LR; }

static inline uint32_t quotient(uint32_t a, uint32_t b) {
    if (b == 0)
        return 0xFFFFFFFF;
    if (a == 0x80000000 && b == 0xFFFFFFFF)
        return a;
    return (uint32_t)((int32_t)a / (int32_t)b);
}

static inline uint32_t remainder_of(uint32_t a, uint32_t b) {
    if (b == 0)
        return a;
    if (a == 0x80000000 && b == 0xFFFFFFFF)
        return 0;
    return (uint32_t)((int32_t)a % (int32_t)b);
}

static inline uint32_t computed(int operation, uint32_t a, uint32_t b) {
    int32_t sa = (int32_t)a, sb = (int32_t)b;
    switch (operation) {
    case ADD: case ADDI: return a + b;
    case SUB: return a - b;
    case SLL: case SLLI: return a << (b & 31);
    case SLT: case SLTI: return sa < sb;
    case SLTU: case SLTIU: return a < b;
    case XOR: case XORI: return a ^ b;
    case SRL: case SRLI: return a >> (b & 31);
    case SRA: case SRAI: return (uint32_t)(sa >> (b & 31));
    case OR: case ORI: return a | b;
    case AND: case ANDI: return a & b;
    case MUL: return a * b;
    case MULH: return (uint32_t)((uint64_t)((int64_t)sa * sb) >> 32);
    case MULHSU: return (uint32_t)((uint64_t)((int64_t)sa * (int64_t)b) >> 32);
    case MULHU: return (uint32_t)((uint64_t)a * b >> 32);
    case DIV: return quotient(a, b);
    case DIVU: return b == 0 ? 0xFFFFFFFF : a / b;
    case REM: return remainder_of(a, b);
    case REMU: return b == 0 ? a : a % b;
    }
    return 0;
}

/* The word that was `old`, once the value was stored at the address, which is in it. */
static inline uint32_t stored(uint32_t old, uint32_t address, int operation, uint32_t value) {
    uint32_t width = width_of(operation), shift = address % 4 * 8, mask = width == 4 ? 0xFFFFFFFF : ((1u << 8 * width) - 1) << shift;
    return (old & ~mask) | (value << shift & mask);
}

static inline uint32_t loaded(const struct machine *m, uint32_t address, int operation) {
    uint32_t v = word_at(m, address) >> address % 4 * 8;
    switch (operation) {
    case LB: return (uint32_t)extended(v, 8);
    case LBU: return v & 0xFF;
    case LH: return (uint32_t)extended(v, 16);
    case LHU: return v & 0xFFFF;
    default: return v;
    }
}

#endif
