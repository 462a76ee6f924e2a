"""What is found in the examples, and in small runs made by hand."""

import unittest

import support
from lib import isa
from lib.image import Image
from lib.logs import ORDER_SIZE, Log
from lib.play import play
from lib.symbols import Names as Symbols
from lib.symbols import NoWord
from lib.trace import Trace
from lib.words import aba, last_store, lost, shared_words, uses
from test_guide import HAS_LINES, NO_LINES


def commits(find):
    return (find.load[0].number, [c.number for c, _ in find.others], find.store[0].number)


class Examples(unittest.TestCase):
    def test_race(self):
        trace = support.traced("race, plan.toml")
        names = trace.names
        self.assertEqual(shared_words(trace)[-2:], [names.word("counter"), names.word("lock")])
        self.assertEqual([(names.name(f.word), *commits(f), f.is_same) for f in lost(trace)],
                         [("lock", 13, [14, 14, 14], 15, False), ("counter", 16, [17, 17, 17, 18, 19, 19], 22, False),
                          ("counter", 21, [22, 22, 24, 24], 27, False)])
        self.assertEqual(aba(trace), [])
        counter = names.word("counter")
        self.assertEqual([(u.of, u.kind, u.count) for u in uses(trace, counter)],
                         [((1, False), isa.LOAD, 10), ((1, False), isa.STORE, 10), ((2, False), isa.LOAD, 10),
                          ((2, False), isa.STORE, 10), ((0, False), isa.LOAD, 1)])
        self.assertEqual([last_store(trace, counter, n)[0].number for n in (None, 27, 22)], [30, 24, 19])
        self.assertIsNone(last_store(trace, counter, 1))

    def test_mended_race(self):
        trace = support.traced("race, mended.toml")
        self.assertEqual((lost(trace), aba(trace)), ([], []))

    def test_stack(self):
        trace = support.traced("aba, plan.toml")
        first, second = aba(trace)
        self.assertEqual((trace.names.name(first.word), first.load[0].number, first.store[0].number), ("top", 18, 38))
        self.assertEqual((first.source[1].value, first.now), (trace.names.word("blocks") + 0x10, trace.names.word("blocks") + 8))
        self.assertEqual((second.load[0].number, second.store[0].number, second.now), (22, 61, second.source[1].value))

    def test_ticks(self):
        r = next(r for r in support.recorded() if r.image.name == "ticks.elf")
        image, log, played = support.played(r)
        trace = Trace(image, log, played)
        found = lost(trace)
        self.assertEqual({trace.names.name(f.word) for f in found}, {"counter"})
        self.assertEqual(len(found), 5)
        for find in found:
            self.assertEqual(trace.context(find.load[0]), (0, 0))
            self.assertEqual([trace.context(c).handler > 0 for c, _ in find.others], [True])

    def test_wake_up(self):
        trace = support.traced("wake-up, plan.toml")
        (find,) = lost(trace)
        self.assertEqual((trace.names.name(find.word), *commits(find), find.is_same), ("awake", 15, [19, 20], 21, True))


# lw x3, 0(x1); sw x2, 0(x1); sb x2, 1(x1); lbu x3, 0(x1); amoadd.w x0, x2, (x1); exit
LW, SW, SB, LBU, ADD = 0x0000A183, 0x0020A023, 0x002080A3, 0x0000C183, 0x0020A02F


def by_hand(*turns):
    """The trace of two threads that each do these instructions, one a commit: turns are (thread, word of code)."""
    code = [0x40000093, 0x00100113]  # x1 = 0x400, x2 = 1
    spawn = [0x03C00513, 0x00000593, 0x00000613, 0x00100893, 0x00000073]  # spawn(3C, 0, 0)
    mine = [[w for k, w in turns if k == thread] for thread in (0, 1)]
    image = code + spawn + mine[0]
    image += [0x13] * (15 - len(image)) + code + mine[1]
    memory = b"".join(w.to_bytes(4, "little") for w in image)
    order = [0, 0, 1] + [k for k, _ in turns]
    sizes = [6, 0, 2] + [1] * len(turns)
    picture = Image(4096, 0, memory + bytes(4096 - len(memory)), b"\x7fELF" + bytes(60))
    log = Log(1, 15, ORDER_SIZE, 16, len(order), order, sizes, {}, [], [])
    played = play(picture, log)
    assert played.end == ("complete", len(order)), played.end
    return Trace(picture, log, played)


class ByHand(unittest.TestCase):
    def test_load_store_store(self):
        (find,) = lost(by_hand((0, LW), (1, SW), (0, SW)))
        self.assertEqual((*commits(find), find.is_same), (3, [4], 5, False))

    def test_none(self):
        for turns in (((0, LW), (0, SW), (1, SW)), ((0, LW), (1, SW), (0, LW), (0, SW)), ((0, SW), (1, SW), (0, SW)),
                      ((0, LW), (1, LW), (0, SW)), ((0, LW), (1, ADD), (0, ADD)), ((0, LBU), (1, SB), (0, SW)),
                      ((0, LW), (0, ADD), (1, SW), (0, SW))):
            self.assertEqual(lost(by_hand(*turns)), [], turns)

    def test_an_addition_between_is_lost(self):
        (find,) = lost(by_hand((0, LW), (1, ADD), (0, SW)))
        self.assertEqual(commits(find), (3, [4], 5))

    def test_parts_of_a_word(self):
        (find,) = lost(by_hand((0, LW), (1, SB), (0, SW)))
        self.assertEqual((commits(find), find.is_same), ((3, [4], 5), False))

    def test_both_are_lost(self):
        self.assertEqual([commits(f) for f in lost(by_hand((0, LW), (1, LW), (0, SW), (1, SW)))], [(4, [5], 6)])


def interrupted(turns, interrupts):
    """The trace of a thread that does these instructions, one a commit, after two commits of its own. Its handler stores 1 to
    the word if the interrupt's value isn't 0, and else loads it. interrupts: values by the number of commits before."""
    handler = [0x00050663, SW, 0x0080006F, LW, 0x00700893, 0x00000073]  # beq x10, x0, 12; sw; jal 8; lw; iret
    code = [0x40000093, 0x00100113, 0x04000513, 0x00600893, 0x00000073, *turns]
    code += [0x13] * (16 - len(code)) + handler
    memory = b"".join(w.to_bytes(4, "little") for w in code)
    sizes = [4, 0]
    left = len(turns)
    while left or len(sizes) in interrupts:
        if len(sizes) in interrupts:
            sizes += [4 if interrupts[len(sizes)] else 3, 0]
        else:
            sizes, left = sizes + [1], left - 1
    picture = Image(4096, 0, memory + bytes(4096 - len(memory)), b"\x7fELF" + bytes(60))
    log = Log(1, 15, ORDER_SIZE, 16, len(sizes), [0] * len(sizes), sizes, {(0, n): v for n, v in interrupts.items()}, [], [])
    played = play(picture, log)
    assert played.end == ("complete", len(sizes)), played.end
    return Trace(picture, log, played)


class Interrupts(unittest.TestCase):
    def test_a_handler_between(self):
        (find,) = lost(interrupted([LW, SW], {3: 1}))
        self.assertEqual(commits(find), (2, [3], 5))

    def test_each_interrupt_is_a_context_of_its_own(self):
        """The first one loads, the thread stores, the second one stores: it has loaded nothing."""
        trace = interrupted([SW, SW], {2: 0, 5: 1})
        self.assertEqual([tuple(c) for c in trace.contexts()], [(0, 0), (0, 1), (0, 2)])
        self.assertEqual(lost(trace), [])
        self.assertEqual(shared_words(trace), [0x400])

    def test_a_handler_that_only_loads(self):
        self.assertEqual(lost(interrupted([LW, SW], {3: 0})), [])


class Names(unittest.TestCase):
    def test_words(self):
        names = support.traced("race, plan.toml").names
        counter = names.by_name["counter"].addr
        for text, wanted in (("counter", counter), ("counter+4", counter + 4), ("600", 0x600), ("0x600", 0x600),
                             ("00000600", 0x600), ("600+0x10", 0x610), ("counter+3", counter)):
            self.assertEqual(names.word(text), wanted, text)
        self.assertEqual(names.name(names.word("stacks+0x10")), "stacks[0].words[4]" if HAS_LINES else "stacks+0x10")
        for text in ("count", "counter+x", "counter-4", "", "1000", "F0000000", "counter+0x1000", "600 "):
            with self.assertRaises(NoWord, msg=text):
                names.word(text)

    @unittest.skipUnless(HAS_LINES, NO_LINES)
    def test_parts(self):
        names = support.traced("aba, plan.toml").names
        blocks = names.by_name["blocks"].addr
        for text, away in (("blocks[3].below", 0x18), ("blocks[2].owner", 0x14), ("blocks[2]", 0x10), ("blocks[2]+4", 0x14)):
            self.assertEqual(names.word(text), blocks + away, text)
        self.assertEqual(list(names.words("blocks[2]")), [blocks + 0x10, blocks + 0x14])
        self.assertEqual([names.name(blocks + away, width) for away, width in ((0x18, 4), (0x14, 4), (0x14, 1), (0x10, 8))],
                         ["blocks[3].below", "blocks[2].owner", "blocks[2].owner", "blocks[2]"])
        self.assertEqual([names.name(blocks + 0x15, 1), names.whole_name(blocks + 0x15)], ["blocks[2].owner+0x1", "blocks"])
        for text in ("blocks[9]", "blocks.below", "blocks[2].none", "blocks[3].below.x", "top.x", "blocks[", "blocks[2"):
            with self.assertRaises(NoWord, msg=text):
                names.word(text)

    def test_odd_names(self):
        """Names of any bytes are shown without control characters, and a damaged table of symbols counts as no table."""
        data = support.example("race, plan.toml").image.read_bytes()
        odd = data.replace(b"counter\0", b"c\x1b[1m\n\xff\0")
        self.assertEqual(Symbols(Image(4096, 0, b"", odd)).name(0x600), "c?[1m?\ufffd")
        for at in range(0, len(data), 7):
            changed = bytearray(data)
            changed[at] ^= 0xFF
            names = Symbols(Image(4096, 0, b"", bytes(changed)))
            names.place(0x68) if at % 245 == 0 else names.function(0x68)
        Symbols(Image(4096, 0, b"", data[:200])).place(0x68)

    def test_static_variables_of_functions(self):
        """A compiler's `count.1` is `count`, if nothing else is called so; its function isn't known without debug information."""
        data = support.example("race, plan.toml").image.read_bytes()
        names = Symbols(Image(4096, 0, b"", data.replace(b"counter\0", b"count.1\0")))
        self.assertEqual([names.name(0x600), names.word("count"), names.word("count.1+4")], ["count", 0x600, 0x604])
        names = Symbols(Image(4096, 0, b"", data.replace(b"counter\0", b"lock.11\0")))
        self.assertEqual([names.name(0x600), names.name(0x604)], ["lock.11", "lock"])

    def test_functions(self):
        names = support.traced("race, plan.toml").names
        self.assertEqual([names.function(pc) for pc in (0, 0x5C, 0x68)], ["_start", "work", "work"])
        main = names.by_name["main"]
        end = main.addr + main.size
        self.assertEqual([names.function(pc) for pc in (main.addr, end - 4, end)], ["main", "main", None])
        self.assertEqual(support.traced("two-threads, plan.toml").names.place(0x10), "00000010")


if __name__ == "__main__":
    unittest.main()
