"""RV32IMA: `OPS[word]` is a function that does the instruction which the word of code denotes.

It takes the thread's registers, its pc and the machine, and returns the next pc. An instruction that can't be in a chunk (a
call, a break, a device's word, a fault) does nothing and returns a number below 0, which says what it is.
"""

from collections import namedtuple

M = 0xFFFFFFFF
BIN = 32  # the register that gets what is written to x0

# Numbers below 0: a fault of cause c is -1 - c.
CALL, BREAK, DEVICE_LOAD, DEVICE_STORE = -10, -11, -12, -13
MOMENT, INPUT_BYTE, CONSOLE_WORD = 0xF0000000, 0xF0000004, 0xF0000008


def fault(cause):
    return -1 - cause


def is_fault(stop):
    return -8 <= stop <= -1


# One access to a word of memory or of a device. step: the number of the instruction (or DMA) that made it. kind: below.
# addr, width: the bytes. value: what a register got, or the bytes that were stored. old, new: the whole word before and after.
Access = namedtuple("Access", "step pc kind addr width value old new")
LOAD, STORE, LR, SC, SC_FAILED, AMO, SWAP, COPY, DMA, OUT, DEVICE, CONSOLE = range(12)
KIND_NAMES = ("load", "store", "lr", "sc", "sc failed", "amo", "swap", "kernel store", "dma store", "kernel load",
              "device load", "device store")
LOADS = frozenset((LOAD, LR, AMO, SWAP, OUT))          # kinds that read a word of memory
STORES = frozenset((STORE, SC, AMO, SWAP, COPY, DMA))  # kinds that write one
TOLD = frozenset((LOAD, LR, AMO, SWAP, DEVICE))        # kinds that have an `l` line in an account
_new = tuple.__new__


def signed(v):
    return v - 0x100000000 if v & 0x80000000 else v


def extend(v, bits):
    """The low bits, with their sign, as a whole number."""
    v &= (1 << bits) - 1
    return v - (1 << bits) if v >> (bits - 1) else v


# ---------------------------------------------------------------- values


def _div(a, b):
    if b == 0:
        return M
    a, b = signed(a), signed(b)
    q = abs(a) // abs(b)
    return (q if (a < 0) == (b < 0) else -q) & M


def _rem(a, b):
    if b == 0:
        return a
    a, b = signed(a), signed(b)
    r = abs(a) % abs(b)
    return (-r if a < 0 else r) & M


_VALUES = {
    (0, 0x00): lambda a, b: (a + b) & M,
    (0, 0x20): lambda a, b: (a - b) & M,
    (1, 0x00): lambda a, b: (a << (b & 31)) & M,
    (2, 0x00): lambda a, b: int(signed(a) < signed(b)),
    (3, 0x00): lambda a, b: int(a < b),
    (4, 0x00): lambda a, b: a ^ b,
    (5, 0x00): lambda a, b: a >> (b & 31),
    (5, 0x20): lambda a, b: (signed(a) >> (b & 31)) & M,
    (6, 0x00): lambda a, b: a | b,
    (7, 0x00): lambda a, b: a & b,
    (0, 0x01): lambda a, b: (a * b) & M,
    (1, 0x01): lambda a, b: (signed(a) * signed(b) >> 32) & M,
    (2, 0x01): lambda a, b: (signed(a) * b >> 32) & M,
    (3, 0x01): lambda a, b: a * b >> 32,
    (4, 0x01): _div,
    (5, 0x01): lambda a, b: a // b if b else M,
    (6, 0x01): _rem,
    (7, 0x01): lambda a, b: a % b if b else a,
}
_TAKEN = {
    0: lambda a, b: a == b,
    1: lambda a, b: a != b,
    4: lambda a, b: signed(a) < signed(b),
    5: lambda a, b: signed(a) >= signed(b),
    6: lambda a, b: a < b,
    7: lambda a, b: a >= b,
}
_ATOMIC = {
    0x00: lambda a, b: (a + b) & M,
    0x01: lambda a, b: b,
    0x04: lambda a, b: a ^ b,
    0x08: lambda a, b: a | b,
    0x0C: lambda a, b: a & b,
    0x10: lambda a, b: a if signed(a) <= signed(b) else b,
    0x14: lambda a, b: a if signed(a) >= signed(b) else b,
    0x18: min,
    0x1C: max,
}

# ---------------------------------------------------------------- one function for each word


def _stops(stop):
    return lambda x, pc, m: stop


_ILLEGAL = _stops(fault(2))


def _upper(rd, imm, from_pc):
    def lui(x, pc, m):
        x[rd] = imm
        return pc + 4

    def auipc(x, pc, m):
        x[rd] = (pc + imm) & M
        return pc + 4

    return auipc if from_pc else lui


def _jal(rd, imm):
    if imm & 3:
        return _stops(fault(0))

    def jal(x, pc, m):
        x[rd] = pc + 4
        return (pc + imm) & M

    return jal


def _jalr(rd, a, imm):
    def jalr(x, pc, m):
        target = (x[a] + imm) & 0xFFFFFFFE
        if target & 2:
            return fault(0)
        x[rd] = pc + 4
        return target

    return jalr


def _branch(a, b, imm, taken):
    def branch(x, pc, m):
        if taken(x[a], x[b]):
            return fault(0) if imm & 3 else (pc + imm) & M
        return pc + 4

    return branch


def _addi(rd, a, imm):
    def addi(x, pc, m):
        x[rd] = (x[a] + imm) & M
        return pc + 4

    return addi


def _immediate(rd, a, imm, value):
    def immediate(x, pc, m):
        x[rd] = value(x[a], imm)
        return pc + 4

    return immediate


def _register(rd, a, b, value):
    def register(x, pc, m):
        x[rd] = value(x[a], x[b])
        return pc + 4

    return register


def _lw(rd, a, imm):
    def lw(x, pc, m):
        addr = (x[a] + imm) & M
        if addr & 3:
            return fault(4)
        if addr >= m.size:
            return DEVICE_LOAD if addr == MOMENT or addr == INPUT_BYTE else fault(5)
        v = x[rd] = m.words[addr >> 2]
        m.note(_new(Access, (len(m.pcs) - 1, pc, LOAD, addr, 4, v, v, v)))
        return pc + 4

    return lw


def _load(rd, a, imm, form):
    width, has_sign = form
    bits = 8 * width

    def load(x, pc, m):
        addr = (x[a] + imm) & M
        if addr & (width - 1):
            return fault(4)
        if addr >= m.size:
            return fault(5)
        word = m.words[addr >> 2]
        v = word >> 8 * (addr & 3) & ((1 << bits) - 1)
        if has_sign:
            v = extend(v, bits) & M
        x[rd] = v
        m.note(_new(Access, (len(m.pcs) - 1, pc, LOAD, addr, width, v, word, word)))
        return pc + 4

    return load


def _sw(a, b, imm):
    def sw(x, pc, m):
        addr = (x[a] + imm) & M
        if addr & 3:
            return fault(6)
        if addr >= m.size:
            return DEVICE_STORE if addr == CONSOLE_WORD else fault(7)
        old, v = m.words[addr >> 2], x[b]
        m.words[addr >> 2] = v
        m.note(_new(Access, (len(m.pcs) - 1, pc, STORE, addr, 4, v, old, v)))
        return pc + 4

    return sw


def _store(a, b, imm, width):
    bits = (1 << 8 * width) - 1

    def store(x, pc, m):
        addr = (x[a] + imm) & M
        if addr & (width - 1):
            return fault(6)
        if addr >= m.size:
            return fault(7)
        old, v, shift = m.words[addr >> 2], x[b] & bits, 8 * (addr & 3)
        new = m.words[addr >> 2] = old & ~(bits << shift) | v << shift
        m.note(_new(Access, (len(m.pcs) - 1, pc, STORE, addr, width, v, old, new)))
        return pc + 4

    return store


def _lr(rd, a):
    def lr(x, pc, m):
        addr = x[a]
        if addr & 3:
            return fault(4)
        if addr >= m.size:
            return fault(5)
        v = x[rd] = m.words[addr >> 2]
        m.reserved = addr
        m.note(_new(Access, (len(m.pcs) - 1, pc, LR, addr, 4, v, v, v)))
        return pc + 4

    return lr


def _sc(rd, a, b):
    def sc(x, pc, m):
        addr, v = x[a], x[b]
        if addr & 3:
            return fault(6)
        if addr >= m.size:
            return fault(7)
        old = m.words[addr >> 2]
        if m.reserved == addr:
            m.words[addr >> 2] = v
            x[rd] = 0
            m.note(_new(Access, (len(m.pcs) - 1, pc, SC, addr, 4, v, old, v)))
        else:
            x[rd] = 1
            m.note(_new(Access, (len(m.pcs) - 1, pc, SC_FAILED, addr, 4, v, old, old)))
        m.reserved = None
        return pc + 4

    return sc


def _amo(rd, a, b, f5):
    value, kind = _ATOMIC[f5], SWAP if f5 == 0x01 else AMO

    def amo(x, pc, m):
        addr = x[a]
        if addr & 3:
            return fault(6)
        if addr >= m.size:
            return fault(7)
        old = m.words[addr >> 2]
        new = m.words[addr >> 2] = value(old, x[b])
        x[rd] = old
        m.note(_new(Access, (len(m.pcs) - 1, pc, kind, addr, 4, old, old, new)))
        return pc + 4

    return amo


def _passes(x, pc, m):
    return pc + 4


_LOAD_FORMS = {0: (1, True), 1: (2, True), 4: (1, False), 5: (2, False)}  # width, whether with a sign


def operation(w):
    """The function of a word of code."""
    op, rd, f3, a, b, f7 = w & 0x7F, (w >> 7 & 31) or BIN, w >> 12 & 7, w >> 15 & 31, w >> 20 & 31, w >> 25
    imm = extend(w >> 20, 12)
    if op == 0x37 or op == 0x17:
        return _upper(rd, w & 0xFFFFF000, op == 0x17)
    if op == 0x6F:
        j = (w >> 31) << 20 | (w >> 12 & 0xFF) << 12 | (w >> 20 & 1) << 11 | (w >> 21 & 0x3FF) << 1
        return _jal(rd, extend(j, 21))
    if op == 0x67 and f3 == 0:
        return _jalr(rd, a, imm)
    if op == 0x63 and f3 in _TAKEN:
        to = (w >> 31) << 12 | (w >> 7 & 1) << 11 | (w >> 25 & 0x3F) << 5 | (w >> 8 & 0xF) << 1
        return _branch(a, b, extend(to, 13), _TAKEN[f3])
    if op == 0x03 and f3 == 2:
        return _lw(rd, a, imm)
    if op == 0x03 and f3 in _LOAD_FORMS:
        return _load(rd, a, imm, _LOAD_FORMS[f3])
    if op == 0x23 and f3 <= 2:
        to = extend(f7 << 5 | w >> 7 & 31, 12)
        return _sw(a, b, to) if f3 == 2 else _store(a, b, to, 1 << f3)
    if op == 0x13 and f3 == 0:
        return _addi(rd, a, imm)
    if op == 0x13 and f3 in (1, 5):
        return _immediate(rd, a, b, _VALUES[f3, f7]) if (f3, f7) in ((1, 0), (5, 0), (5, 0x20)) else _ILLEGAL
    if op == 0x13:
        return _immediate(rd, a, imm & M, _VALUES[f3, 0])
    if op == 0x33 and (f3, f7) in _VALUES:
        return _register(rd, a, b, _VALUES[f3, f7])
    if op == 0x0F and f3 <= 1:
        return _passes
    if w == 0x00000073:
        return _stops(CALL)
    if w == 0x00100073:
        return _stops(BREAK)
    if op == 0x2F and f3 == 2:
        return _atomic(w >> 27, rd, a, b)
    return _ILLEGAL


def _atomic(f5, rd, a, b):
    if f5 == 0x02:
        return _lr(rd, a) if b == 0 else _ILLEGAL
    if f5 == 0x03:
        return _sc(rd, a, b)
    if f5 in _ATOMIC:
        return _amo(rd, a, b, f5)
    return _ILLEGAL


class _Operations(dict):
    """Functions by word. Each is made when it is first asked for."""

    def __missing__(self, word):
        f = self[word] = operation(word)
        return f


OPS = _Operations()
