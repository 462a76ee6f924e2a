"""Threads that wait in loops of many steps: a search finds the hang, or says that it was left at a limit."""

import tempfile
import unittest
from pathlib import Path

import support  # noqa: F401: where lib is
from all_ends import met_ends
from lib.conditions import read_condition
from lib.engine import Engine, Options
from lib.loops import long_loop_of, loop_of
from lib.machine import Machine
from lib.symbols import Names
from small_programs import CODE_OF_THREAD, EXIT, SHARED, SPAWN, addi, beq, bne, call, elf, image_of, lw, sw
from test_search import CAN_BUILD, NO_COMPILER, command, laid

FLAG, OTHER = SHARED, SHARED + 4
END = [addi(10, 0, 0), *call(EXIT)]


def lui(rd, pages):
    return 0x37 | rd << 7 | pages << 12


def waits(steps, word=FLAG, does=()):
    """Looks at the word again and again, each time after so many steps, until it isn't 0. does: in each round."""
    rounds, more = divmod(steps - len(does) - 4, 2)
    body = [lw(7, word), *does, lui(8, (rounds + 0x800) >> 12), addi(8, 8, rounds), *[addi(0, 0, 0)] * more, addi(8, 8, -1), bne(8, 0, -4)]
    return [*body, beq(7, 0, -4 * len(body)), *END]


def together(first, *others):
    """The first thread starts the others."""
    starts = [word for k in range(len(others)) for word in (addi(10, 0, CODE_OF_THREAD * (k + 1)), *call(SPAWN))]
    code = laid(*starts, *first)
    for k, other in enumerate(others, 1):
        code.update({CODE_OF_THREAD * k + place: word for place, word in laid(*other).items()})
    return code


def sets(word, value):
    return [addi(7, 0, value), sw(7, word)]


CLEARS = [*sets(OTHER, 1), *sets(FLAG, 0), *END]
SETS = [*sets(FLAG, 1), *END]


@unittest.skipUnless(CAN_BUILD, NO_COMPILER)
class LongLoops(unittest.TestCase):
    def searched(self, code, bad, **options):
        image = image_of(code)
        with Engine(image, read_condition([bad], Names(image)), Options(**options)) as engine:
            return engine.search(8, 10**6, 1 << 22, 60)

    def assert_hang(self, code, leaf="waits", **options):
        result = self.searched(code, "hang", **options)
        self.assertEqual((result.how, result.bound), ("found", 0))
        self.assertEqual(result.told.leaf, leaf)
        self.assertNotIn(None, result.told.loops.values())

    def test_lengths(self):
        for steps in (3007, 5009, 15009):
            with self.subTest(steps):
                self.assert_hang(together(waits(steps), CLEARS))

    def test_alone(self):
        for steps in (5009, 50001):
            self.assert_hang(together(waits(steps)))

    def test_two_lengths(self):
        self.assert_hang(together(waits(5009), waits(7013, OTHER)))
        self.assert_hang(together(waits(7013, does=[lw(9, OTHER)]), waits(5009), [lw(9, OTHER), *END]))

    def test_shorter_turns(self):
        """However many turns there are in a round."""
        for turn in (100, 2500):
            self.assert_hang(together(waits(5009), CLEARS), turn=turn)

    def test_few_runs_kept(self):
        """Others that may come where a turn has had its steps are tried later then."""
        one = together(waits(2003, does=[lw(9, OTHER)]), [*sets(OTHER, 1), *END], [*sets(OTHER, 2), *END])
        ends = [met_ends(image_of(one), Options(turn=500), *line) for line in ([], ["keep 0"], ["keep 1"])]
        self.assertEqual(ends[1:], ends[:1] * 2)

    def test_loop_that_stores(self):
        self.assert_hang(together(waits(9007, does=[addi(9, 0, 1), sw(9, OTHER), sw(0, OTHER)]), [lw(9, OTHER), *END]), "repeats")

    def test_other_conditions(self):
        """What is so at the end alone is looked at where a thread waits for ever."""
        for bad in ("word %X = 1" % OTHER, "exit 1 = 0 and hang 0", "stuck 0", "exit 1 = 0", "ever word %X = 1" % OTHER):
            with self.subTest(bad):
                self.assertEqual(self.searched(together(waits(5009), CLEARS), bad).how, "found")

    def test_no_hang(self):
        for steps in (5009,):
            result = self.searched(together(waits(steps), SETS), "hang")
            self.assertEqual((result.how, result.limited), ("all", 0))

    def test_limit(self):
        """A loop that is too long for --steps isn't denied."""
        for steps, limit in ((5009, 10000), (50001, 100000)):
            result = self.searched(together(waits(steps), CLEARS), "hang", steps=limit)
            self.assertEqual(result.how, "all")
            self.assertGreater(result.limited, 0)

    def said(self, code, *words):
        with tempfile.TemporaryDirectory() as folder:
            image = Path(folder) / "a.elf"
            image.write_bytes(elf(code))
            return command("search", image, 4096, "--out", Path(folder) / "a.log", "--bad", "hang", *words)

    def test_words(self):
        status, said = self.said(together(waits(9007), CLEARS))
        self.assertEqual(status, 0, said)
        self.assertIn("no thread goes on, in whatever order", said)
        self.assertIn("thread 0 waits: 0000000C\n    for 00000400, which is 00000000", said)
        status, said = self.said(together(waits(9007), CLEARS), "--steps", "12000")
        self.assertEqual(status, 1, said)
        self.assertNotIn("all states were met", said)
        self.assertRegex(said, "no order that came to its end ends so: [0-9]+ states in [0-9]+ runs?\n"
                               "but [0-9]+ runs? (was|were) left at the limit of steps")


class Interpreted(unittest.TestCase):
    def test_lengths(self):
        for steps, is_short in ((9007, True), (50001, False)):
            machine = Machine(image_of(laid(*waits(steps))))
            loop = long_loop_of(machine, 0, 4096)
            self.assertEqual(sum(size for size, _ in loop.commits), steps)
            self.assertEqual(loop_of(machine, 0, 4096) is not None, is_short)


if __name__ == "__main__":
    unittest.main()
