"""The kernel's calls, interrupts and DMA at their ends, on a machine by hand, and the lines of an account for their states."""

import unittest

import support  # noqa: F401
from lib import isa
from lib.account import account_lines
from lib.image import Image
from lib.logs import Input
from lib.machine import BAD_BUFFER, NOTHING, REFUSED, UNKNOWN, Machine, fits
from lib.play import Played

ECALL = 0x00000073
SIZE = 8192


def machine(most=15, word=ECALL):
    return Machine(Image(SIZE, 0, word.to_bytes(4, "little") * (SIZE // 4), b""), most)


def call(m, number, *arguments, record=None, k=0):
    """What the call answers in a0."""
    t = m.threads[k]
    pc = t.pc
    t.x[17] = number
    t.x[10:13] = (arguments + (0, 0, 0))[:3]
    need = m.need(k)
    assert (need is None) == (record is None), need
    assert record is None or fits(need, record), need
    m.serve(k, record)
    assert t.pc == pc + 4
    return t.x[10]


class Calls(unittest.TestCase):
    def test_threads(self):
        for most in (15, 63):
            m = machine(most)
            self.assertEqual(call(m, 1, 6), REFUSED)
            self.assertEqual([call(m, 1, 4 * j, 100 + j, 200 + j) for j in range(1, most)], list(range(1, most)))
            self.assertEqual(call(m, 1, 0), REFUSED)
            t = m.threads[most - 1]
            self.assertEqual((t.pc, t.x[2], t.x[10]), (4 * (most - 1), 100 + most - 1, 200 + most - 1))
            self.assertEqual((call(m, 9), call(m, 9, k=2), call(m, 10, 5)), (0, 2, 0))
            m.threads[1].status = ("fault", 2)
            self.assertEqual([call(m, 11, k) for k in (0, 1, 2, most)], [0, 1, 0, REFUSED])

    def test_others(self):
        m = machine()
        self.assertEqual((call(m, 12), call(m, 99), call(m, 7)), (UNKNOWN, UNKNOWN, REFUSED))
        m.threads[0].x[17], m.threads[0].x[10] = 0, 7
        m.serve(0)
        self.assertEqual((m.threads[0].status, m.threads[0].x[10], m.threads[0].live()), (("ended", 7), 7, False))
        for word, cause in ((0x00100073, 3), (0, 2)):
            m = machine(word=word)
            m.serve(0)
            self.assertEqual((m.threads[0].status, m.threads[0].pc), (("fault", cause), 0))

    def test_buffers(self):
        m = machine()
        for number, arguments in ((2, (0, SIZE - 3, 4)), (3, (9, SIZE + 1, 0)), (4, (SIZE - 4095, 5000)), (3, (0, 0xFFFFFFFF, 1))):
            self.assertEqual(call(m, number, *arguments), BAD_BUFFER, number)
        self.assertEqual(call(m, 4, SIZE - 4096, 5000, record=Input(4, 4096, bytes(range(256)) * 16)), 4096)
        self.assertEqual(bytes(m.memory[SIZE - 4096 :]), bytes(range(256)) * 16)
        self.assertEqual(call(m, 3, 0, 0x1FFD, 3, record=Input(3, 3, b"abc")), 3)
        self.assertEqual([(a.kind, a.addr, a.width, a.value) for a in m.accesses[-1:]], [(isa.COPY, 0x1FFD, 3, 0x636261)])
        self.assertEqual(call(m, 3, 0, 0x1000, 3, record=Input(3, NOTHING, b"")), NOTHING)
        self.assertEqual(call(m, 3, 0, 0x1000, 5000, record=Input(3, 2, b"ab")), 2)
        self.assertEqual(call(m, 2, 8, 0x1000, 5000, record=Input(2, 4096, b"")), 4096)
        self.assertEqual(call(m, 5, record=Input(5, 77, b"")), 77)

    def test_what_is_written(self):
        m = machine()
        m.memory[0x1001:0x1007] = b"abcdef"
        m.threads[0].x[10:13], m.threads[0].x[17] = (8, 0x1001, 6), 2
        need = m.need(0)
        self.assertEqual((need.channel, need.length, need.data), (8, 6, b"abcdef"))
        served = m.serve(0, Input(2, 5, b""))
        self.assertEqual((served.output, served.result), ((8, b"abcde"), 5))
        self.assertEqual([(a.kind, a.addr, a.width) for a in m.accesses], [(isa.OUT, 0x1001, 3), (isa.OUT, 0x1004, 2)])
        m.threads[0].x[10:13] = (8, 0x1001, 6)
        self.assertEqual(m.serve(0, Input(2, REFUSED, b"")).output, (8, b""))

    def test_what_fits(self):
        m = machine()

        def need(number, *arguments):
            m.threads[0].x[17], m.threads[0].x[10:13] = number, (arguments + (0, 0, 0))[:3]
            return m.need(0)

        write, read, random, clock = need(2, 0, 0x1000, 3), need(3, 0, 0x1000, 3), need(4, 0x1000, 3), need(5)
        for wanted, good, bad in (
            (write, [(2, 0, b""), (2, 3, b""), (2, NOTHING, b""), (2, REFUSED, b"")],
             [(2, 4, b""), (2, 1, b"a"), (3, 1, b"a"), (2, BAD_BUFFER, b"")]),
            (read, [(3, 0, b""), (3, 3, b"abc"), (3, NOTHING, b""), (3, REFUSED, b"")],
             [(3, 1, b""), (3, 4, b"abcd"), (3, NOTHING, b"a"), (3, 1, b"ab"), (2, 0, b"")]),
            (random, [(4, 3, b"abc")], [(4, 2, b"ab"), (4, 3, b"ab"), (4, 2, b"abc"), (4, REFUSED, b"")]),
            (clock, [(5, 0, b""), (5, 0xFFFFFFFF, b"")], [(5, 1, b"a"), (16, 1, b"")]),
        ):
            self.assertTrue(all(fits(wanted, Input(*r)) for r in good), wanted)
            self.assertFalse(any(fits(wanted, Input(*r)) for r in bad) or fits(wanted, None), wanted)


class InterruptsAndTransfers(unittest.TestCase):
    def test_interrupt(self):
        m = machine()
        t = m.threads[0]
        self.assertFalse(m.interrupt(0, 1))
        self.assertEqual((call(m, 6, 0x102), call(m, 6, 0x100)), (REFUSED, 0))
        t.x[10], t.x[11] = 5, 6
        self.assertTrue(m.interrupt(0, 42))
        self.assertEqual((t.pc, t.x[10], t.x[11], t.masked, t.saved, t.interrupts), (0x100, 42, 6, True, (8, 5, 6), 1))
        self.assertFalse(m.interrupt(0, 43))
        lines = account_lines(Played([], m, ("complete", 0)))[0]
        self.assertEqual(lines[1], "h 0 00000008 00000005 00000006")
        t.x[17] = 7
        m.serve(0)
        self.assertEqual((t.pc, t.x[10], t.x[11], t.masked, t.saved), (8, 5, 6, False, (0, 0, 0)))
        self.assertEqual(call(m, 6, 0), 0)
        self.assertFalse(m.interrupt(0, 44))

    def test_transfer(self):
        m = machine()
        for buffer, length in ((2, 4), (SIZE - 4, 1), (SIZE, 0), (SIZE - 4096, 5000)):
            self.assertEqual(call(m, 8, buffer, length), BAD_BUFFER)
        self.assertEqual((call(m, 8, SIZE - 12, 8), m.request), (0, (SIZE - 12, 8)))
        self.assertEqual((call(m, 8, 0, 8), call(m, 8, 2, 8), m.request), (REFUSED, BAD_BUFFER, (SIZE - 12, 8)))
        self.assertIn("d 00001FF4 8", account_lines(Played([], m, ("complete", 0)))[0])
        m.dma(b"abcde")
        self.assertEqual((bytes(m.memory[-12:-3]), m.request), (b"\5\0\0\0abcde", None))
        self.assertEqual([(a.kind, a.addr, a.width) for a in m.accesses],
                         [(isa.DMA, SIZE - 12, 4), (isa.DMA, SIZE - 8, 4), (isa.DMA, SIZE - 4, 1)])
        self.assertEqual((call(m, 8, 0x1000, 5000), m.request), (BAD_BUFFER, None))
        self.assertEqual((call(m, 8, 0xFFC, 5000), m.request), (0, (0xFFC, 4096)))

    def test_devices(self):
        lw, sw = 0x0000A183, 0x0030A023  # lw x3, 0(x1); sw x3, 0(x1)
        for addr, kind in ((isa.MOMENT, 16), (isa.INPUT_BYTE, 17)):
            m = machine(word=lw)
            m.threads[0].x[1] = addr
            self.assertEqual(m.need(0).kind, kind)
            m.serve(0, Input(kind, 99, b""))
            self.assertEqual((m.threads[0].x[3], m.threads[0].pc), (99, 4))
        m = machine(word=sw)
        m.threads[0].x[1], m.threads[0].x[3] = isa.CONSOLE_WORD, 0x141
        self.assertIsNone(m.need(0))
        self.assertEqual((m.serve(0).output, m.threads[0].pc), ((8, b"A"), 4))


class GoingBack(unittest.TestCase):
    def test_all_of_a_state_comes_back(self):
        m = machine()
        call(m, 6, 0x100)
        m.threads[0].reservation = 0x400
        call(m, 8, 0x1000, 8)
        state, mark = m.save(), m.mark()
        m.threads[0].reservation = None
        m.dma(b"ab")
        m.interrupt(0, 9)
        call(m, 1, 0)
        call(m, 3, 0, 0x1000, 3, record=Input(3, 3, b"abc"))
        after = m.save()
        self.assertNotEqual(after, state)
        m.back(mark)
        self.assertEqual((m.save(), m.mark()), (state, mark))
        m.restore(after)
        self.assertEqual(m.save(), after)
        m.restore(state)
        self.assertEqual((m.save(), m.threads[0].reservation), (state, 0x400))


if __name__ == "__main__":
    unittest.main()
