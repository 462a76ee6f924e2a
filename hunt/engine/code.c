#include "inside.h"
#include "operations.h"
#include "segments.h"

static int of_table(const int8_t *table, uint32_t f3) { return table[f3] < 0 ? ILLEGAL : table[f3]; }

static struct code taken_apart(uint32_t w) {
    static const int8_t branches[] = {BEQ, BNE, -1, -1, BLT, BGE, BLTU, BGEU}, loads[] = {LB, LH, LW, -1, LBU, LHU, -1, -1},
                        stores[] = {SB, SH, SW, -1, -1, -1, -1, -1}, immediates[] = {ADDI, -1, SLTI, SLTIU, XORI, -1, ORI, ANDI},
                        plain[] = {ADD, SLL, SLT, SLTU, XOR, SRL, OR, AND},
                        products[] = {MUL, MULH, MULHSU, MULHU, DIV, DIVU, REM, REMU};
    uint32_t f3 = w >> 12 & 7, f7 = w >> 25;
    struct code c = {.word = w, .operation = ILLEGAL, .rd = w >> 7 & 31, .rs1 = w >> 15 & 31, .rs2 = w >> 20 & 31};
    c.value = extended(w >> 20, 12);
    switch (w & 0x7F) {
    case 0x37:
    case 0x17:
        c.operation = (w & 0x7F) == 0x37 ? LUI : AUIPC;
        c.value = (int32_t)(w & 0xFFFFF000);
        break;
    case 0x6F:
        c.operation = JAL;
        c.value = extended((w >> 31) << 20 | (w >> 12 & 0xFF) << 12 | (w >> 20 & 1) << 11 | (w >> 21 & 0x3FF) << 1, 21);
        break;
    case 0x67:
        c.operation = f3 == 0 ? JALR : ILLEGAL;
        break;
    case 0x63:
        c.operation = of_table(branches, f3);
        c.value = extended((w >> 31) << 12 | (w >> 7 & 1) << 11 | (w >> 25 & 0x3F) << 5 | (w >> 8 & 0xF) << 1, 13);
        break;
    case 0x03:
        c.operation = of_table(loads, f3);
        break;
    case 0x23:
        c.operation = of_table(stores, f3);
        c.value = extended(f7 << 5 | c.rd, 12);
        break;
    case 0x13:
        if (f3 == 1 || f3 == 5) {
            c.operation = f3 == 1 && f7 == 0 ? SLLI : f3 == 5 && f7 == 0 ? SRLI : f3 == 5 && f7 == 0x20 ? SRAI : ILLEGAL;
            c.value = c.rs2;
        } else
            c.operation = of_table(immediates, f3);
        break;
    case 0x33:
        if (f7 == 0)
            c.operation = plain[f3];
        else if (f7 == 1)
            c.operation = products[f3];
        else if (f7 == 0x20)
            c.operation = f3 == 0 ? SUB : f3 == 5 ? SRA : ILLEGAL;
        break;
    case 0x0F:
        c.operation = f3 <= 1 ? FENCE : ILLEGAL;
        break;
    case 0x73:
        c.operation = w == 0x73 ? ECALL : w == 0x00100073 ? EBREAK : ILLEGAL;
        break;
    case 0x2F:
        if (f3 == 2)
            switch (w >> 27) {
            case 0x00: c.operation = AMOADD; break;
            case 0x01: c.operation = AMOSWAP; break;
            case 0x02: c.operation = c.rs2 == 0 ? LR : ILLEGAL; break;
            case 0x03: c.operation = SC; break;
            case 0x04: c.operation = AMOXOR; break;
            case 0x08: c.operation = AMOOR; break;
            case 0x0C: c.operation = AMOAND; break;
            case 0x10: c.operation = AMOMIN; break;
            case 0x14: c.operation = AMOMAX; break;
            case 0x18: c.operation = AMOMINU; break;
            case 0x1C: c.operation = AMOMAXU; break;
            }
        c.value = 0;
        break;
    }
    return c;
}

/* Whether an instruction is one that a thread does between places. A word that anybody has stored to isn't, since it may change. */
static bool is_plain(const struct machine *m, uint32_t pc, int operation) {
    bool is_one = is_local(operation) || (is_access(operation) && !is_marked(m, pc));
    return is_one && touchers_of(pc).storer == NOBODY && !is_place_word(pc);
}

const struct code *code_at(struct machine *m, uint32_t pc) {
    struct code *c = &m->code[pc / 4];
    uint32_t word = word_at(m, pc), now;
    if (c->word != word || c->word == 0) {
        *c = taken_apart(word);
        note_fetched(pc);
    }
    now = changes_begun() + 1;
    if (c->plain != now && is_plain(m, pc, c->operation))
        c->plain = now;
    return c;
}
