"""A search by several threads comes to the same ends as by one, however they come between each other. DELOREAN_SEARCH_DELAYS makes
them wait at points of the engine that it names, so that they do."""

import os
import pty
import re
import signal
import subprocess
import time
import unittest
from pathlib import Path
from unittest import mock

import support
from all_ends import LIVE, met_ends
from lib.conditions import read_condition
from lib.engine import Engine, Options
from lib.image import read_image
from lib.symbols import Names
from locked_programs import locked_program, with_marks
from small_programs import (END_OF_WORDS, SHARED, SIZE, addi, beq, bne, elf, image_of, lw, random_program, reserving_step, sw,
                            waiting_step)
from test_long_loops import CLEARS, END, OTHER, SETS, together, waits
from test_search import BUGS, CAN_BUILD, EXAMPLES, NO_COMPILER, RACE, command, written
from test_search_keys import HAS_ENDED, calls, waits_for
from test_search_states import A, ANSWER, B, BUFFER, DELAY, ENDS, FLAG, REQUEST, SEEN, SPAWNS_TWO, W, laid, sets

X = W
FEW = Options(steps=100000)
# Each is for some of the programs: at every point a few wait; one of the crew is slow where it meets states, or to close them; the others are
# slow to tell what they know, or to judge.
DELAYS = ("place:*:+100,close:*:+100,offer:*:+100,leaf:*:+200,fact:*:+200,take:*:+200,give back:*:+200", "place:1:+300,take:0:500",
          "close:*:+1000", "fact:*:1000,leaf:1:+500", "")


def delayed(text):
    return mock.patch.dict(os.environ, {"DELOREAN_SEARCH_DELAYS": text})


@unittest.skipUnless(CAN_BUILD, NO_COMPILER)
class SameEnds(unittest.TestCase):
    def programs(self):
        for seed in range(6):
            yield image_of(random_program(seed, waiting_step)[0])
            yield image_of(random_program(seed, reserving_step, 2)[0])
            code, _, marks = locked_program(seed)
            yield read_image(with_marks(elf(code), marks), SIZE)

    def test_random_programs(self):
        hangs = 0
        for place, image in enumerate(self.programs()):
            expected = met_ends(image, FEW)
            hangs += expected[2]
            for jobs, delays in (2, DELAYS[place % len(DELAYS)]), (4, DELAYS[(place + 1) % len(DELAYS)]):
                with delayed(delays):
                    self.assertEqual(met_ends(image, FEW, "jobs %d" % jobs), expected, (place, jobs, delays))
        self.assertGreater(hangs, 2)

    def test_news(self):
        """No runs before the search find out which words are shared. So the search begins again and again, and whoever finds such a word is
        slow to say so. Or another one finds it while a loop is looked at."""
        for place, image in enumerate(list(self.programs())[:9]):
            expected = met_ends(image, FEW)
            for delays in "news:*:2000,take:*:+200", "around:*:2000,news:*:+1000":
                with delayed(delays):
                    self.assertEqual(met_ends(image, FEW, "jobs 4", "scouts 0"), expected, (place, delays))

    def test_few_kept(self):
        """Those that can't part are given to the others."""
        for image in list(self.programs())[:6]:
            self.assertEqual(met_ends(image, FEW, "keep 1", "jobs 3"), met_ends(image, FEW))

    def test_long_loops(self):
        """Of more steps than a turn has, so that others may come within a round."""
        for turn, code in ((400, together(waits(1009, does=[lw(9, OTHER)]), CLEARS, SETS)),
                           (2500, together(waits(5009, does=[lw(9, OTHER)]), waits(3007), [lw(9, OTHER), *END]))):
            image, options = image_of(code), FEW._replace(turn=turn)
            with delayed("close:*:+500,take:*:500"):
                self.assertEqual(met_ends(image, options, "jobs 3"), met_ends(image, options), turn)

    def test_two_in_one_loop(self):
        """Thread 1 is left before it looks at A, or before it looks at B, and then thread 2 clears B. So two of the crew come into the same
        loop, which never ends, at two of its places. If each stopped at a state that the other one was first in, nobody would go round. The
        loop looks at SEEN too, and runs in which threads change at random don't come there, so nobody knew before that it never ends."""
        image = laid([*sets(B, 1), *SPAWNS_TWO, *ENDS],
                     [addi(9, 0, 1), sw(9, FLAG), addi(9, 0, 2), sw(9, FLAG),
                      lw(7, A), bne(7, 0, 24), lw(7, B), bne(7, 0, 16), lw(6, SEEN), addi(6, 0, 0), beq(0, 0, -24), *ENDS],
                     [lw(8, FLAG), sw(8, SEEN), *DELAY, sw(0, B), sw(0, A), *ENDS])
        for delays in "", "place:*:10000":
            with delayed(delays):
                self.assertIn(2, self.seen_in_hangs(image, "jobs 16"), delays)

    def test_each_sees_another_one_wait(self):
        """Threads 1 and 2 wait from their beginning on, for what never comes. Two of the crew come to this end at once, each by another
        thread, and neither has seen the other one's wait."""
        image = laid([*SPAWNS_TWO, *ENDS], *[[lw(7, A), beq(7, 0, -4), *ENDS]] * 2)
        with delayed("leaf:*:20000"):
            self.assertEqual(met_ends(image, FEW, "jobs 2", "scouts 0"), ("all", {}, True))

    def test_word_that_is_shared_while_a_loop_is_looked_at(self):
        """Thread 2 waits until thread 1 has ended or W is set; thread 0 sets W once thread 1 has ended. To see W set, thread 2 is left
        between its two looks, which wants a forced switch. One of the crew is slow in thread 2's loop, and meanwhile another one finds
        that W is shared. If the loop counted as one of a single place from then on, nobody would look at W in it again."""
        image = laid([*SPAWNS_TWO, *waits_for(1), *sets(W, 1), *ENDS], ENDS,
                     [*calls(HAS_ENDED, 1), addi(17, 0, 0), bne(10, 0, 20), lw(8, W), beq(8, 0, -24), addi(5, 0, 1), sw(5, ANSWER), *ENDS])
        by_hand = ("all", {(0, 0, 0, 0, 0): 0, (0, 0, 0, 1, 0): 1}, False)
        self.assertEqual(met_ends(image, FEW), by_hand)
        with delayed("take:1:20000,leaf:1:20000,around:0:100000"):
            self.assertEqual(met_ends(image, FEW, "jobs 2", "scouts 0"), by_hand)

    def test_word_that_is_shared_while_others_have_items(self):
        """Only with a forced switch thread 2 sees the flag, and stores to X. Before, thread 0 had no place at its stores to X, and what is
        left to be tried parts after so many stops as there were then: by now these are stops before the request and its DMA. To part
        there would do a DMA that nobody asked for, to address 0, and so share the code there. FLAG and X alone are shared."""
        image = laid([addi(6, 0, 1), *[sw(6, X)] * 20, *SPAWNS_TWO, *calls(REQUEST, BUFFER, 4), *[lw(7, FLAG)] * 8,
                      *ENDS],
                     [*sets(FLAG, 1), *sets(FLAG, 0), *ENDS], [lw(7, FLAG), beq(7, 0, 8), sw(7, X), *ENDS])
        for _ in range(8):  # mostly once is enough
            with delayed("news:*:20000"), Engine(image, read_condition(["fault"], Names(image)), FEW._replace(all_places=True)) as engine:
                engine.send("jobs 2", "scouts 0")
                self.assertEqual(engine.search(1, 10**6, 1 << 20, 60).bounds[-1].shared, 2)

    def seen_in_hangs(self, image, *lines):
        with Engine(image, read_condition(["word %X = 999" % SHARED], Names(image)), FEW) as engine:
            engine.send(*lines)
            engine.collect_ends(SHARED, END_OF_WORDS - SHARED)
            result = engine.search(1, 10**6, 1 << 20, 60)
        return [end.memory[SEEN - SHARED] for end in result.ends if any(status == LIVE for status, _ in end.threads)]


@unittest.skipUnless(CAN_BUILD, NO_COMPILER)
class Verdicts(unittest.TestCase):
    def test_found_and_mended(self):
        """With as few forced switches; its log is walked."""
        for bug, mended, bad, switches, most in (BUGS[0], *BUGS[3:]):
            with self.subTest(bug.name):
                status, said = command("search", bug, 4096, "--bad", bad, "--out", os.devnull, "--jobs", 4)
                self.assertEqual(status, 0, said)
                self.assertIn("found with %d forced switch" % switches, said)
                status, said = command("search", mended, 4096, "--bad", bad, "--out", os.devnull, "--switches", most, "--jobs", 4)
                self.assertEqual(status, 1, said)
                self.assertRegex(said, "no order ends so, with however many|no order with at most %d forced" % most)
                self.assertNotIn("but", said)

    def test_interrupts_and_hangs(self):
        ticks = EXAMPLES / "interrupt/ticks.elf"
        raises = ("--raise", "0:1", "--raise", "0:2", "--jobs", "3")
        status, said = command("search", ticks, 4096, "--bad", "exit 0 > 2", "--out", os.devnull, *raises)
        self.assertIn("no order ends so, with however many switches", said)
        status, said = command("search", EXAMPLES / "sleep/sleep.elf", 4096, "--bad", "stuck", "--out", os.devnull, "--jobs", 3)
        self.assertEqual(status, 0, said)
        self.assertIn("found with 1 forced switch", said)

    def test_limits(self):
        status, said = command("search", RACE / "race.elf", 4096, "--bad", "exit 0 = 3", "--out", os.devnull, "--tries", 100, "--jobs", 4)
        self.assertEqual(status, 1, said)
        self.assertRegex(said, "the limit of tries was met with 1 forced: [0-9]+ runs of them tried, the rest isn't covered")
        with written({4 * j: word for j, word in enumerate((beq(0, 0, 0),))}) as file:
            status, said = command("search", file.name, 4096, "--bad", "fault", "--out", os.devnull, "--steps", 5000, "--jobs", 2)
        self.assertEqual(status, 1, said)

    def test_progress(self):
        """On a terminal a line tells each second how it is, each one in place of the last. Elsewhere there is none."""
        words = [support.TOP / "hunt/search", RACE / "mended.elf", "4096", "--bad", "exit 0 != 0", "--out", os.devnull, "--jobs", "2"]
        ours, terminal = pty.openpty()
        with delayed("place:*:2500"):
            began = time.monotonic()
            told = subprocess.run(words, stdout=subprocess.PIPE, stderr=terminal, text=True).stdout
            seconds = time.monotonic() - began
        os.close(terminal)
        shown = read_all(ours)
        lines = re.findall(r"\r(with[^\r]*)", shown)
        self.assertTrue(1 <= len(lines) <= seconds, (seconds, shown))
        for line in lines:
            self.assertRegex(line, r"^with(out a| \d) forced( switch)?: \d+ runs?, \d+ states?, \d+ places? so far, \d+ s; "
                                   r"\d+ of this bound's \d+ ways? not begun *$")
        self.assertRegex(shown, r"\r *\r$")
        self.assertNotIn("begun", told)
        self.assertEqual(subprocess.run(words, capture_output=True, text=True).stderr, "")

    def test_refused(self):
        for words in ("--jobs", "0"), ("--jobs", "65"), ("--jobs", "2", "--strategy", "pct"):
            self.assertEqual(command("search", RACE / "race.elf", 4096, "--bad", "hang", "--out", os.devnull, *words)[0], 2, words)

    def test_killed(self):
        """If the engine is killed, with all its threads, nothing is said to be covered."""
        words = [RACE / "mended.elf", "4096", "--bad", "exit 0 != 0", "--out", os.devnull, "--jobs", "3"]
        with delayed("place:*:100000"):
            search = subprocess.Popen([support.TOP / "hunt/search", *words], stdout=subprocess.PIPE, stderr=subprocess.STDOUT, text=True)
        os.kill(engine_of(search.pid), signal.SIGKILL)
        said, _ = search.communicate()
        self.assertEqual(search.returncode, 2, said)
        self.assertNotIn("no order", said)


def read_all(terminal):
    """What was written to it, once nobody else has it open."""
    text = b""
    while True:
        try:
            text += os.read(terminal, 4096)
        except OSError:
            os.close(terminal)
            return text.decode()


def engine_of(pid):
    """The process of the engine that the command has started."""
    while True:
        for child in Path("/proc/%d/task/%d/children" % (pid, pid)).read_text().split():
            if "engine-" in Path("/proc/%s/cmdline" % child).read_text():
                return int(child)
        time.sleep(0.01)


if __name__ == "__main__":
    unittest.main()
