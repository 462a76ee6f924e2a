"""What is told of why a run failed: in the examples, checked against their sources, and in small runs made by hand."""

import unittest

import support
from lib.halfway import early_at_end, early_looks, overwritten, taken_over
from lib.why import stale_uses, switch_lines
from small_programs import EXIT, SHARED, SPAWN, addi, call, lw, sw
from test_guide import HAS_LINES, NO_LINES
from test_hangs import two_locks, walked
from test_words import ADD, LBU, LW, SB, SW, by_hand, interrupted

# Of each bug: the plan, the word, and the source lines of the load, of the store that made it stale, and of what was done then.
STALE = [
    ("race, plan.toml", "lock", "while (lock != 0)", "lock = 1;", "lock = 1;"),
    ("aba, plan.toml", "blocks+0x18", "__atomic_compare_exchange_n(&top, &old, below", "block->below = old;",
     "__atomic_compare_exchange_n(&top, &old, below"),
    ("interrupt, plan.toml", "counter", "counter = counter + 1;", "counter = counter + 1;", "counter = counter + 1;"),
    ("wake-up, plan.toml", "put", "while (taken != put)", "put = put + 1;", "awake = 0;"),
    ("sleep, plan.toml", "put", "while (taken != put)", "put = put + 1;", "awake = 0;"),
    ("no-second-look, plan.toml", "count", "while (count == 0)", "count--;", "sums[own] += ring[first++"),
    ("below-zero, plan.toml", "count", "while (count == 0)", "count--;", "sums[own] += ring[first++"),
    ("release, plan.toml", "counter", "counter = counter + 1;", "counter = counter + 1;", "counter = counter + 1;"),
]
OURS = "hunt/examples/interrupt"  # examples/interrupt has a plan of the same name


def traced(plan):
    if plan.startswith("interrupt"):
        recording = next(r for r in support.recorded() if r.image == support.TOP / OURS / "ticks.elf")
        image, log, played = support.played(recording)
        return recording, support.Trace(image, log, played)
    return support.example(plan), support.traced(plan)


def source(recording, trace, pc):
    """The text of the source line of a pc."""
    file, _, number = trace.names.line(pc).rpartition(":")
    return (recording.image.parent / file).read_text().splitlines()[int(number) - 1]


class Examples(unittest.TestCase):
    def test_words(self):
        for plan, word, *_ in STALE:
            _, trace = traced(plan)
            self.assertEqual(stale_uses(trace)[0].word, trace.names.word(word), plan)

    @unittest.skipUnless(HAS_LINES, NO_LINES)
    def test_source_lines(self):
        for plan, _, *wanted in STALE:
            recording, trace = traced(plan)
            stale = stale_uses(trace)[0]
            for access, text in zip((stale.load[1], stale.stores[-1][1], stale.use.access), wanted):
                self.assertIn(text, source(recording, trace, access.pc), plan)

    def test_each_is_told(self):
        for plan, *_ in STALE + [("once, plan.toml",)]:
            _, trace = traced(plan)
            self.assertIn(" is left ", switch_lines(trace)[0], plan)

    @unittest.skipUnless(HAS_LINES, NO_LINES)
    def test_settings_that_are_seen_too_early(self):
        recording, trace = traced("once, plan.toml")
        (early,) = early_looks(trace)
        lines = [source(recording, trace, a.pc).strip() for a in (early.first[1], early.second[1], early.load[1])]
        self.assertEqual(lines[:2], ["settings->limit = LIMIT;", "settings->step = STEP;"])
        self.assertIn("mine->step != STEP", lines[2])
        self.assertEqual(stale_uses(trace), [])

    @unittest.skipUnless(HAS_LINES, NO_LINES)
    def test_a_lock_that_another_one_releases(self):
        recording, trace = traced("release, plan.toml")
        (stale,) = stale_uses(trace)
        ((own, other),) = taken_over(trace, stale.load, stale.use.access.step)
        self.assertEqual(trace.names.name(own[1].addr), "lock")
        self.assertEqual((own[1].new, other[1].new), (1, 0))
        self.assertIn("static void release(void)", source(recording, trace, other[1].pc))

    @unittest.skipUnless(HAS_LINES, NO_LINES)
    def test_a_last_reader(self):
        """Its own store of 0, the other reader's store of 1, and the look at that."""
        recording, trace = traced("last-reader, plan.toml")
        (found,) = overwritten(trace)
        self.assertEqual((stale_uses(trace), early_looks(trace), trace.names.name(found.word)), ([], [], "readers"))
        for access, text in ((found.own[1], "--readers;"), (found.others[-1][1], "++readers"), (found.load[1], "if (readers == 0)")):
            self.assertIn(text, source(recording, trace, access.pc))

    def test_at_most_five_lines(self):
        """The first two name the store that made the load stale; of what comes again at the same places the first is told."""
        for plan in [plan for plan, *_ in STALE] + ["once, plan.toml", "last-reader, plan.toml"]:
            self.assertLessEqual(len(switch_lines(traced(plan)[1])), 5, plan)
        self.assertIn(", and 4 times more", switch_lines(traced("interrupt, plan.toml")[1])[1])
        self.assertIn(", and once more", switch_lines(traced("race, plan.toml")[1])[3])

    def test_mended(self):
        for plan in ("last-reader, mended.toml", "below-zero, mended.toml","race, mended.toml", "once, mended.toml", "release, mended.toml"):
            self.assertEqual(switch_lines(traced(plan)[1]), [], plan)


def uses(trace):
    return [(s.load[0].number, [c.number for c, _ in s.stores], s.use.commit.number) for s in stale_uses(trace)]


# addi x3, x3, 1; addi x3, x0, 5; sw x3, 4(x1); beq x3, x0, 8; amoswap.w x0, x2, (x1); amoswap.w x3, x2, (x1)
NEXT, FIVE, SW4, IF, XCHG0, XCHG = 0x00118193, 0x00500193, 0x0030A223, 0x00018463, 0x0820A02F, 0x0820A1AF
LW4, NOTHING = 0x0040A203, 0x00000013  # lw x4, 4(x1); addi x0, x0, 0


class ByHand(unittest.TestCase):
    def test_a_stored_value(self):
        """The load of commit 3, an addition, and its store to another word, which thread 1 loads."""
        self.assertEqual(uses(by_hand((0, LW), (1, SW), (0, NEXT), (0, SW4), (1, LW4))), [(3, [4], 6)])

    def test_another_value_is_stored(self):
        self.assertEqual(uses(by_hand((0, LW), (1, SW), (0, FIVE), (0, SW4), (1, LW4))), [])

    def test_a_word_of_its_own(self):
        self.assertEqual(uses(by_hand((0, LW), (1, SW), (0, NEXT), (0, SW4))), [])

    def test_a_branch(self):
        """The word was 0, so the branch leaves out the store after it."""
        (stale,) = stale_uses(by_hand((0, LW), (1, SW), (0, IF), (0, NOTHING), (1, LW4), (0, NOTHING)))
        self.assertEqual((stale.use.commit, stale.use.access, stale.use.instead), (None, None, stale.load[1].pc + 8))

    def test_a_look_that_decides_nothing(self):
        """The word was 0, so the branch leaves out the nop. After that the word is only loaded, and then there is a store."""
        (stale,) = stale_uses(by_hand((0, LW), (1, SW), (0, IF), (0, NOTHING), (0, LW), (1, LW4), (0, SW4)))
        self.assertEqual((stale.use.commit.number, stale.use.instead), (7, stale.load[1].pc + 8))

    def test_a_fresh_look(self):
        self.assertEqual(uses(by_hand((0, LW), (1, SW), (0, LW), (0, SW4), (1, LW4))), [])

    def test_the_same_value(self):
        self.assertEqual(uses(by_hand((1, SW), (0, LW), (1, SW), (0, SW4), (1, LW4))), [])

    def test_no_store_between(self):
        self.assertEqual(uses(by_hand((1, SW), (0, LW), (0, SW4), (1, LW4))), [])

    def test_parts_of_a_word(self):
        """Thread 0 loads byte 0, thread 1 stores byte 1 of the word."""
        self.assertEqual(uses(by_hand((0, LBU), (1, SB), (0, SW4), (1, LW4))), [])

    def test_the_last_store(self):
        self.assertEqual(uses(by_hand((0, LW), (1, SW), (1, ADD), (0, SW4), (1, LW4))), [(3, [4, 5], 6)])

    def test_an_exchange_is_a_store_if_its_value_is_dropped(self):
        trace = by_hand((0, XCHG0), (1, XCHG))
        self.assertEqual([trace.is_look(a) for a in trace.accesses], [False, True])
        self.assertEqual([trace.is_blind(a) for a in trace.accesses], [True, False])

    def test_interrupts(self):
        """The handler stores 1 between the load and the store of the thread; x3 isn't what the thread stores."""
        self.assertEqual(uses(interrupted([LW, SW], {3: 1})), [])

    def test_overwritten(self):
        self.assertEqual(overwritten(by_hand((0, SW), (1, ADD), (0, LW))), [])


@unittest.skipUnless(support.can_walk(), support.NOT_BUILT)
class AtTheEnd(unittest.TestCase):
    """Thread 0 stores a flag and then the data. Thread 1 sees the flag, loads the data, and ends with them; or stores to them first."""

    def code(self, *last):
        first = [addi(10, 0, 0x100), *call(SPAWN), addi(5, 0, 1), sw(5, SHARED), addi(5, 0, 7), sw(5, SHARED + 4)]
        second = [*last, lw(6, SHARED), lw(10, SHARED + 4), *call(EXIT)]
        code = {4 * j: word for j, word in enumerate(first)}
        code.update({0x100 + 4 * j: word for j, word in enumerate(second)})
        return code

    def test_a_store_that_would_have_come(self):
        trace = walked(self, self.code(sw(0, SHARED + 4)), [(0, 2), (0, 0), (0, 2), (1, 4), (1, 0)])
        ((early, longer),) = early_at_end(trace)
        self.assertEqual((early.second[1].addr, early.second[1].new, early.second[0].number), (SHARED + 4, 7, 5))
        self.assertEqual(len(longer.commits), 6)
        first, second = switch_lines(trace)
        self.assertIn("(after the log's end, ", first)
        self.assertIn("calls exit(0)", second)

    def test_none_that_makes_a_difference(self):
        """Thread 1 loads the data when they are there."""
        trace = walked(self, self.code(sw(0, SHARED + 4)), [(0, 2), (0, 0), (0, 4), (1, 4), (1, 0)])
        self.assertEqual((early_at_end(trace), switch_lines(trace)), ([], []))


@unittest.skipUnless(support.can_walk(), support.NOT_BUILT)
class NothingStale(unittest.TestCase):
    """A thread is left though it could go on, and none of its loads is stale."""

    def test_two_locks(self):
        """Each thread has stored to its lock, and then finds the other's. Thread 0 is left after it took the lock at SHARED."""
        trace = walked(self, *two_locks())
        first, second = switch_lines(trace)
        self.assertRegex(first, r"^thread 0 is left after it stores 00000001 to %08X \(commit 2, .*; thread 1 stores 00000001 to %08X" % (
            SHARED, SHARED + 4))
        self.assertRegex(second, r"^    and thread 0 finds that \(commit \d")

    def run_of(self, first, second, turns):
        """Thread 0 starts thread 1, and each does its instructions; then thread 0 ends with 7."""
        code = {4 * j: word for j, word in enumerate([addi(10, 0, 0x100), *call(SPAWN), addi(5, 0, 1), *first, addi(10, 0, 7), *call(EXIT)])}
        code.update({0x100 + 4 * j: word for j, word in enumerate([addi(5, 0, 2), *second, addi(10, 0, 0), *call(EXIT)])})
        return walked(self, code, [(0, 2), (0, 0), *turns])

    def test_a_store_over_another(self):
        trace = self.run_of([sw(5, SHARED + 8), sw(5, SHARED)], [lw(6, SHARED + 8), sw(5, SHARED)],
                            [(0, 2), (1, 5), (1, 0), (0, 3), (0, 0)])
        self.assertEqual([line.replace(" ", "")[:30] for line in switch_lines(trace)][1], "andthread0stores00000001overit")

    def test_a_store_that_is_seen(self):
        """What thread 1 does has nothing to do with what thread 0 does after it."""
        trace = self.run_of([sw(5, SHARED)], [lw(6, SHARED)], [(0, 2), (1, 4), (1, 0), (0, 2), (0, 0)])
        (line,) = switch_lines(trace)
        self.assertIn("thread 0 is left after it stores 00000001 to 00000400 (commit 2, ", line)
        self.assertIn("thread 1 loads 00000001 of 00000400 (commit 3, ", line)

    def test_a_run_that_ends_well(self):
        trace = self.run_of([sw(5, SHARED), addi(0, 0, 0)], [lw(6, SHARED)], [(0, 2), (1, 4), (1, 0), (0, 3), (0, 0)])
        self.assertEqual(len(switch_lines(trace)), 1)
        self.assertEqual(switch_lines(trace, False), [])


if __name__ == "__main__":
    unittest.main()
