"""Conditions of a moment: of small programs the search finds each that some order meets, with as few forced switches, and no other;
and what it writes is a log that ends at the moment."""

from collections import deque
import tempfile
import unittest
from pathlib import Path

import support
from lib.conditions import BadCondition, Ended, read_condition
from lib.engine import Engine, Options
from lib.symbols import Names
from lib.trace import open_trace
from small_programs import (ECALL, EXIT, SHARED, Machine, addi, bne, call, end_chunk, image_of, random_program, state_of, step, sw, take_step,
                            waiting_step)
from test_search import CAN_BUILD, NO_COMPILER, command

RING = support.TOP / "hunt/examples/no-second-look"
NEVER = (7, 7)


def words(machine):
    return tuple(machine.words[(SHARED >> 2) + j] for j in range(2))


def moments(code):
    """Of each pair of values that the shared words have after a store that changed one of them, the fewest forced switches."""
    machine, found, best = Machine(image_of(code)), {}, {}
    queue = deque([(0, machine.save(), 0)])
    while queue:
        cost, saved, k = queue.popleft()
        machine.restore(saved)
        key = state_of(machine, k)
        if best.get(key, 1 << 30) <= cost:
            continue
        best[key] = cost
        live = [n for n, t in enumerate(machine.threads) if t.live()]
        if not machine.threads[k].live():
            queue.extendleft((cost, saved, n) for n in live)
            continue
        for n in live:
            machine.restore(saved)
            if n != k or machine.threads[k].reservation is not None:
                end_chunk(machine, k)
                queue.append((cost + 1, machine.save(), n))
        machine.restore(saved)
        before = words(machine)
        take_step(machine, k)
        if words(machine) != before:
            found.setdefault(words(machine), cost)
        queue.appendleft((cost, machine.save(), k))
    return found


def searched(image, pair):
    """How the search for a pair ends, and with how many forced switches."""
    text = "ever word %X = %d and word %X = %d" % (SHARED, pair[0], SHARED + 4, pair[1])
    condition = read_condition([text], Names(image))
    with Engine(image, condition, Options(steps=100000)) as engine:
        result = engine.search(200, 1 << 30, 1 << 20, 60)
    return result.how, result.bound, result.told, condition


@unittest.skipUnless(CAN_BUILD, NO_COMPILER)
class EveryOrder(unittest.TestCase):
    def compare(self, code, seed, costs_are_equal):
        found, image = moments(code), image_of(code)
        for pair in [*found, NEVER]:
            how, bound, told, condition = searched(image, pair)
            self.assertEqual(how, "found" if pair in found else "all", (seed, pair))
            if pair in found:
                self.assertTrue(Ended(told.account).meets(condition, False), (seed, pair))
                (self.assertEqual if costs_are_equal else self.assertLessEqual)(bound, found[pair], (seed, pair))
        return len(found)

    def test_value_of_a_moment_in_a_loop(self):
        """The second round stores 7, by instructions that have been done before, and then 1 again. No other thread looks at the word."""
        image = image_of({4 * j: word for j, word in enumerate([
            addi(8, 0, 5), addi(9, 0, 1), addi(5, 0, 9), sw(8, SHARED), sw(9, SHARED), addi(8, 8, 2), bne(8, 5, -12), *call(EXIT)])})
        for value, how in (5, "found"), (7, "found"), (9, "all"):
            with Engine(image, read_condition(["ever word %X = %d" % (SHARED, value)], Names(image)), Options(steps=100000)) as engine:
                self.assertEqual(engine.search(4, 10**6, 1 << 20, 60).how, how)

    def test_pairs_of_values(self):
        met = sum(self.compare(random_program(seed, step)[0], seed, True) for seed in (1, 3, 6, 10, 12, 14, 19, 24, 25, 30))
        self.assertGreater(met, 30)

    def test_programs_that_wait(self):
        for seed in (20, 21, 22, 23, 24, 26, 31):
            self.compare(random_program(seed, waiting_step)[0], seed, False)


class Words(unittest.TestCase):
    def test_texts(self):
        names = Names(image_of({0: ECALL}))
        (case,) = read_condition(["ever word 400 = 1 and word 404 = 2"], names)
        self.assertEqual([(atom.kind, atom.address, atom.value) for atom in case], [("ever", 0x400, 1), ("ever", 0x404, 2)])
        self.assertEqual(read_condition(["ever fault"], names), read_condition(["fault"], names))
        for text in ("ever", "ever hang", "ever word 400 = 1 and fault", "ever console = x", "word 400 = 1 and ever word 404 = 2"):
            with self.assertRaises(BadCondition, msg=text):
                read_condition([text], names)

    def test_signed(self):
        names = Names(image_of({0: ECALL}))
        for text, value, wanted in (("< 0", 0xFFFFFFFF, True), ("< 0", 0, False), (">= 0", 0x80000000, False), (">= 0", 1, True),
                                    ("< -1", 0xFFFFFFFE, True), ("< -1", 0xFFFFFFFF, False), ("> -3", 5, True), ("<= -1", 0, False),
                                    ("< 5", 0xFFFFFFFF, False), ("> 5", 0xFFFFFFFF, True), ("= -1", 0xFFFFFFFF, True)):
            account = "m 00000400 %s\nend complete 0\n" % (value.to_bytes(4, "little") + bytes(28)).hex().upper()
            self.assertEqual(Ended(account.encode()).meets(read_condition(["word 400 " + text], names), True), wanted, text)


@unittest.skipUnless(CAN_BUILD and support.can_walk(), NO_COMPILER + ", or no program that walks")
class Example(unittest.TestCase):
    """In the ring the count goes below 0 in some order, and in the mended one in none with a forced switch."""

    def setUp(self):
        folder = tempfile.TemporaryDirectory()
        self.addCleanup(folder.cleanup)
        self.log = Path(folder.name) / "found.log"

    def ends_at_moment(self):
        trace = open_trace(RING / "ring.elf", 4096, self.log)
        count = trace.names.word("count")
        commit, last = trace.of_word(count)[-1]
        self.assertEqual((last.new, commit.number, last.step), (0xFFFFFFFF, len(trace.commits) - 1, trace.steps - 1))

    def test_search(self):
        status, said = command("search", RING / "ring.elf", "4096", "--bad", "ever word count < 0", "--out", self.log)
        self.assertEqual(status, 0, said)
        self.assertIn("found with 2 forced switches", said)
        self.ends_at_moment()

    def test_shrink(self):
        """The seed's log doesn't end with a count below 0, but comes to one."""
        status, said = command("shrink", RING / "ring.elf", "4096", RING / "expected/ring.log", "--bad", "ever word count < 0", "--out",
                               self.log)
        self.assertEqual(status, 0, said)
        self.ends_at_moment()

    def test_mended(self):
        status, said = command("search", RING / "mended.elf", "4096", "--bad", "ever word count < 0", "--out", self.log, "--switches", "1")
        self.assertEqual((status, "no order with at most 1 forced switch" in said), (1, True), said)


if __name__ == "__main__":
    unittest.main()
