"""Instructions on values worked by hand: those that examples seldom reach."""

import unittest

import support  # noqa: F401
from lib import isa
from lib.image import Image
from lib.machine import Machine

REGISTER = {"add": (0, 0), "sub": (0, 0x20), "sll": (1, 0), "slt": (2, 0), "sltu": (3, 0), "xor": (4, 0), "srl": (5, 0),
            "sra": (5, 0x20), "or": (6, 0), "and": (7, 0), "mul": (0, 1), "mulh": (1, 1), "mulhsu": (2, 1), "mulhu": (3, 1),
            "div": (4, 1), "divu": (5, 1), "rem": (6, 1), "remu": (7, 1)}
LEAST, MOST = 0x80000000, 0x7FFFFFFF
M1, M7 = 0xFFFFFFFF, 0xFFFFFFF9  # -1, -7


def machine(*words):
    m = Machine(Image(4096, 0, b"".join(w.to_bytes(4, "little") for w in words) + bytes(4096 - 4 * len(words)), b""))
    return m, m.threads[0]


def register(name, rd, a, b):
    f3, f7 = REGISTER[name]
    return f7 << 25 | b << 20 | a << 15 | f3 << 12 | rd << 7 | 0x33


class Instructions(unittest.TestCase):
    def test_values(self):
        for name, a, b, wanted in (
            ("add", M1, 2, 1), ("sub", 0, 1, M1), ("sll", 1, 33, 2), ("sll", LEAST, 1, 0), ("slt", M1, 0, 1),
            ("slt", 0, M1, 0), ("sltu", M1, 0, 0), ("sltu", 0, M1, 1), ("xor", 5, 3, 6), ("srl", LEAST, 31, 1),
            ("sra", LEAST, 31, M1), ("sra", LEAST, 32, LEAST), ("or", 5, 3, 7), ("and", 5, 3, 1), ("mul", M1, M1, 1),
            ("mul", 0x10000, 0x10000, 0), ("mulh", M1, M1, 0), ("mulh", LEAST, LEAST, 0x40000000), ("mulh", M1, 1, M1),
            ("mulhsu", M1, M1, M1), ("mulhsu", 1, M1, 0), ("mulhu", M1, M1, 0xFFFFFFFE), ("div", M7, 2, 0xFFFFFFFD),
            ("div", 7, 0xFFFFFFFE, 0xFFFFFFFD), ("div", 7, 0, M1), ("div", LEAST, M1, LEAST), ("divu", 7, 0, M1),
            ("divu", M1, 2, MOST), ("rem", M7, 2, M1), ("rem", 7, 0xFFFFFFFE, 1), ("rem", 7, 0, 7), ("rem", LEAST, M1, 0),
            ("remu", 7, 0, 7), ("remu", M1, 10, 5),
        ):
            m, t = machine(register(name, 3, 1, 2), register(name, 0, 1, 2))
            t.x[1], t.x[2] = a, b
            self.assertEqual(m.run(0, 2), 2)
            self.assertEqual((t.x[3], t.x[0]), (wanted, 0), (name, a, b))

    def test_loads_and_stores_of_parts(self):
        words = [3 << 15 | f3 << 12 | 4 << 7 | 0x03 | 1 << 20 for f3 in (0, 4)]  # lb, lbu x4, 1(x3)
        words += [3 << 15 | f3 << 12 | 4 << 7 | 0x03 | 2 << 20 for f3 in (1, 5)]  # lh, lhu x4, 2(x3)
        for word, wanted in zip(words, (0xFFFFFF87, 0x87, 0xFFFFA965, 0xA965)):
            m, t = machine(word)
            m.words[0x100], t.x[3] = 0xA9658743, 0x400
            m.run(0, 1)
            self.assertEqual((t.x[4], m.accesses[0].value), (wanted, wanted))
        for f3, wanted, value in ((0, 0xA965BB43, 0xBB), (1, 0xAABBA965, 0xAABB), (2, 0x00AAAABB, 0x00AAAABB)):
            at = {0: 1, 1: 2, 2: 0}[f3]
            m, t = machine(4 << 20 | 3 << 15 | f3 << 12 | at << 7 | 0x23)
            m.words[0x100], t.x[3], t.x[4] = 0xA9658743 if f3 == 0 else 0x8743A965, 0x400, 0x00AAAABB
            m.run(0, 1)
            self.assertEqual((m.words[0x100], m.accesses[0].value), (wanted, value))

    def test_faults(self):
        lw, sw, amo = 1 << 15 | 2 << 12 | 0x03, 1 << 15 | 2 << 12 | 0x23, 1 << 15 | 2 << 12 | 0x2F
        lr, sc, jalr = amo | 0x02 << 27, amo | 0x03 << 27, 1 << 15 | 5 << 7 | 0x67
        for word, base, stop in (
            (lw, 0x402, isa.fault(4)), (lw, 0x1000, isa.fault(5)), (lw, 0xF0000000, isa.DEVICE_LOAD),
            (lw, 0xF0000004, isa.DEVICE_LOAD), (lw, 0xF0000008, isa.fault(5)), (sw, 0x402, isa.fault(6)),
            (sw, 0x1000, isa.fault(7)), (sw, 0xF0000008, isa.DEVICE_STORE), (sw, 0xF0000000, isa.fault(7)),
            (lr, 0x402, isa.fault(4)), (lr, 0x1000, isa.fault(5)), (sc, 0x402, isa.fault(6)), (sc, 0x1000, isa.fault(7)),
            (amo, 0x402, isa.fault(6)), (amo, 0xF0000008, isa.fault(7)), (jalr, 0x402, isa.fault(0)), (0, 0, isa.fault(2)),
            (0x73, 0, isa.CALL), (0x100073, 0, isa.BREAK), (0x200073, 0, isa.fault(2)), (lr | 1 << 20, 0x400, isa.fault(2)),
            (0x0000200F, 0, isa.fault(2)), (0x00002067, 0, isa.fault(2)), (0x00003003, 0, isa.fault(2)),
            (0x40001013, 0, isa.fault(2)), (0x02000063 | 2 << 12, 0, isa.fault(2)),
        ):
            m, t = machine(word)
            t.x[1] = base
            before = m.save()
            self.assertEqual((m.run(0, 1), m.stop, m.serial(0)), (0, stop, stop), "%08X" % word)
            self.assertEqual((m.save(), len(m.pcs), m.accesses), (before, 0, []))
        m, t = machine()
        t.pc = 0x1000
        self.assertEqual((m.run(0, 1), m.stop), (0, isa.fault(1)))

    def test_jumps(self):
        m, t = machine(1 << 15 | 1 << 7 | 0x67 | 9 << 20)  # jalr x1, 9(x1): the lowest bit falls, and x1 is read first
        t.x[1] = 0x100
        m.run(0, 1)
        self.assertEqual((t.pc, t.x[1]), (0x108, 4))
        m, t = machine(0xFFDFF0EF)  # jal x1, -4
        m.run(0, 1)
        self.assertEqual((t.pc, t.x[1]), (0xFFFFFFFC, 4))
        m, t = machine(0x002000EF)  # jal x1, 2
        self.assertEqual((m.run(0, 1), m.stop, t.x[1]), (0, isa.fault(0), 0))
        m, t = machine(0x00208163)  # beq x1, x2, 2: taken it faults
        self.assertEqual((m.run(0, 1), m.stop), (0, isa.fault(0)))
        t.x[1] = 1
        self.assertEqual((m.run(0, 1), t.pc), (1, 4))

    def test_reservations(self):
        lr, sc = 0x1000A1AF, 0x1820A22F  # lr.w x3, (x1); sc.w x4, x2, (x1)
        m, t = machine(lr, sc, sc)
        t.x[1], t.x[2] = 0x400, 9
        m.run(0, 3)
        self.assertEqual((m.words[0x100], t.x[4]), (9, 1))
        self.assertEqual([a.kind for a in m.accesses], [isa.LR, isa.SC, isa.SC_FAILED])
        m, t = machine(lr, sc)
        t.x[1], t.x[2] = 0x400, 9
        m.run(0, 1)
        m.end_commit(0)
        m.run(0, 1)
        self.assertEqual((m.words[0x100], t.x[4]), (0, 1))

    def test_atomic_operations(self):
        for f5, old, b, wanted in ((0x00, M1, 2, 1), (0x01, 7, 8, 8), (0x04, 5, 3, 6), (0x08, 5, 3, 7), (0x0C, 5, 3, 1),
                                   (0x10, LEAST, 1, LEAST), (0x14, LEAST, 1, 1), (0x18, LEAST, 1, 1), (0x1C, LEAST, 1, LEAST)):
            m, t = machine(f5 << 27 | 2 << 20 | 1 << 15 | 2 << 12 | 2 << 7 | 0x2F)  # rd is rs2
            t.x[1], t.x[2], m.words[0x100] = 0x400, b, old
            m.run(0, 1)
            self.assertEqual((m.words[0x100], t.x[2]), (wanted, old), f5)

    def test_code_that_stores_over_the_next_instruction(self):
        m, t = machine(0x0020A023, 0x00000013)  # sw x2, 0(x1); nop
        t.x[1], t.x[2] = 4, 0x00700193  # addi x3, x0, 7
        m.run(0, 2)
        self.assertEqual(t.x[3], 7)


if __name__ == "__main__":
    unittest.main()
