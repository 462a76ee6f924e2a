"""The search finds what there is to find and says no more than it covered; what it writes was walked and ends badly."""

import contextlib
import importlib.machinery
import importlib.util
import io
import os
import re
import shutil
import subprocess
import tempfile
import unittest
from pathlib import Path
from unittest import mock

import support
from lib.account import account_lines, program
from lib.conditions import BadCondition, Ended, read_condition
from lib.engine import Engine, Options
from lib.image import read_image
from lib.judge import Differs, Judge
from lib.logs import read_log, write_log
from lib.play import play
from lib.symbols import Names
from small_programs import ADD, LR, SC, SHARED, addi, atomic, beq, bne, call, elf, lw, sw

CAN_BUILD = shutil.which(os.environ.get("CC", "cc")) is not None
NO_COMPILER = "the search, since there is no C compiler"
EXAMPLES, RACE = support.TOP / "hunt/examples", support.TOP / "examples/race"
COUNT_IS_WRONG = "exit 0 != 0"

# A bug, how it ends, the fewest forced switches that lead to it, and up to how many the mended program is searched here.
BUGS = [
    (RACE / "race.elf", RACE / "mended.elf", COUNT_IS_WRONG, 2, 8),
    (EXAMPLES / "aba/stack.elf", EXAMPLES / "aba/mended.elf", COUNT_IS_WRONG, 2, 1),
    (EXAMPLES / "sleep/sleep.elf", EXAMPLES / "sleep/mended.elf", "hang", 1, 2),
    (EXAMPLES / "once/once.elf", EXAMPLES / "once/mended.elf", COUNT_IS_WRONG, 1, 8),
    (EXAMPLES / "release/release.elf", EXAMPLES / "release/mended.elf", COUNT_IS_WRONG, 1, 4),
]


def played_account(judge, log):
    """What stands in for the walk of a proved program that isn't built."""
    image = read_image(Path(judge.image).read_bytes(), int(judge.memory))
    return ("\n".join(account_lines(play(image, read_log(log)))[0]) + "\n").encode()


def command(name, *words):
    """What a command of hunt/ ends with, and says."""
    loader = importlib.machinery.SourceFileLoader("hunt_" + name, str(support.TOP / "hunt" / name))
    module = importlib.util.module_from_spec(importlib.util.spec_from_loader(loader.name, loader))
    loader.exec_module(module)
    said, stand_in = io.StringIO(), contextlib.nullcontext()
    if not support.can_walk():
        stand_in = mock.patch.object(Judge, "walked", played_account)
    with stand_in, mock.patch("sys.argv", [name, *map(str, words)]), contextlib.redirect_stdout(said), \
            contextlib.redirect_stderr(said):
        return module.main(), said.getvalue()


def searched(image, condition, switches=12, raises=(), **limits):
    engine = Engine(image, condition, Options(raises=raises, steps=limits.pop("steps", 100000)))
    result = engine.search(switches, limits.pop("tries", 10**6), 1 << 22, 60)
    engine.close()
    return result


def written(code):
    """A file with the image of some code."""
    file = tempfile.NamedTemporaryFile(suffix=".elf")
    file.write(elf(code))
    file.flush()
    return file


def laid(*words):
    return {4 * place: word for place, word in enumerate(words)}


@unittest.skipUnless(CAN_BUILD, NO_COMPILER)
class Bugs(unittest.TestCase):
    def setUp(self):
        folder = tempfile.TemporaryDirectory()
        self.addCleanup(folder.cleanup)
        self.folder = Path(folder.name)

    def test_found_and_replayed(self):
        for image, _, bad, switches, _ in BUGS:
            with self.subTest(image.name):
                log = self.folder / "found.log"
                status, said = command("search", image, 4096, "--bad", bad, "--out", log)
                self.assertEqual(status, 0, said)
                self.assertIn("found with %d forced switch" % switches, said)
                self.assertRegex(said, ", %d forced; walked" % switches)
                self.replays(image, log)

    def replays(self, image, log):
        """The log is replayed on one core and on eight, and the accounts are the walk's."""
        if not support.can_walk():
            return
        shutil.copy(image, self.folder / "a.elf")
        walk = subprocess.run([*program(), "walk", "a.elf", "4096", log], cwd=self.folder, capture_output=True).stdout
        for cores, events in (1, 0), (8, 3000):
            (self.folder / "plan.toml").write_text(
                "cores = %d\nchunk = 32\nbuffer = %d\nwindow = %d\nsignature = 64\nseed = 7\nevents = %d\n[[sphere]]\n"
                'image = "a.elf"\nmemory = 4096\nrole = "replay"\nlog = "found.log"\naccount = "a.txt"\n'
                % (cores, cores, cores, events))
            ran = subprocess.run([*program(), "run", "plan.toml"], cwd=self.folder, capture_output=True)
            self.assertEqual(ran.returncode, 0, ran.stdout)
            self.assertEqual((self.folder / "a.txt").read_bytes(), walk)

    def test_mended(self):
        for _, image, bad, _, switches in BUGS:
            with self.subTest(image.parent.name):
                log = self.folder / "none.log"
                status, said = command("search", image, 4096, "--bad", bad, "--out", log, "--switches", switches)
                self.assertEqual(status, 1, said)
                self.assertRegex(said, "no order ends so, with however many|no order with at most %d forced" % switches)
                self.assertNotIn("but", said)
                self.assertFalse(log.exists())

    def test_shrunk(self):
        log = self.folder / "small.log"
        status, said = command("shrink", RACE / "race.elf", 4096, RACE / "expected/race.log", "--bad", COUNT_IS_WRONG, "--out", log)
        self.assertEqual(status, 0, said)
        before, after = (tuple(map(int, found)) for found in re.findall(r": (\d+) commits, (\d+) switches", said))
        self.assertEqual(before, (36, 13))
        self.assertLessEqual(after, (18, 7))
        again = self.folder / "again.log"
        status, said = command("shrink", RACE / "race.elf", 4096, log, "--bad", COUNT_IS_WRONG, "--out", again)
        self.assertEqual(status, 0, said)
        self.assertLessEqual(read_log(again.read_bytes()).count, after[0])

    def test_hang_shrunk(self):
        sleep, log = EXAMPLES / "sleep", self.folder / "small.log"
        status, said = command("shrink", sleep / "sleep.elf", 4096, sleep / "expected/sleep.log", "--bad", "hang", "--out", log)
        self.assertEqual(status, 0, said)
        self.assertIn("235 commits, 125 switches", said)
        self.assertLessEqual(read_log(log.read_bytes()).count, 27)
        self.assertIn("no thread goes on, in whatever order", said)

    def test_every_recording_shrunk(self):
        """With their inputs, interrupts and DMAs, in all modes; each result was compared with its walk."""
        recordings = [r for r in support.recorded() if r.account.read_bytes().splitlines()[-1].startswith(b"end complete")]
        self.assertGreater(len(recordings), 20)
        for r in recordings:
            if b"\nt 0 " in r.account.read_bytes() and b" live " not in r.account.read_bytes():
                log = self.folder / "small.log"
                status, said = command("shrink", r.image, r.memory, r.log, "--bad", "exit 0 >= 0", "--out", log)
                self.assertEqual(status, 0, (r.name, said))

    def test_good_log_not_shrunk(self):
        log = self.folder / "small.log"
        status, said = command("shrink", RACE / "race.elf", 4096, RACE / "expected/race.log", "--bad", "exit 0 = 0", "--out", log)
        self.assertEqual((status, log.exists()), (1, False), said)


@unittest.skipUnless(CAN_BUILD, NO_COMPILER)
class Ends(unittest.TestCase):
    """A hang, a run that only met a limit, and what is said of either."""

    WAITS = laid(lw(7, SHARED), beq(7, 0, -4))
    COUNTS = laid(addi(7, 7, 1), beq(0, 0, -4))
    COUNTS_IN_MEMORY = laid(addi(6, 0, SHARED), addi(7, 0, 1), atomic(ADD, 0, 6, 7), beq(0, 0, -4))
    PRINTS = laid(addi(10, 0, 8), addi(12, 0, 1), *call(2), beq(0, 0, -16))
    GIVES_UP = laid(*call(0))

    def said(self, code, *words):
        with written(code) as file, tempfile.TemporaryDirectory() as folder:
            log = Path(folder) / "a.log"
            status, said = command("search", file.name, 4096, "--out", log, *words)
            self.assertEqual(log.exists(), status == 0)
            return status, said

    def test_hang(self):
        status, said = self.said(self.WAITS, "--bad", "hang")
        self.assertEqual(status, 0, said)
        self.assertIn("no thread goes on, in whatever order", said)

    def test_state_that_comes_again(self):
        status, said = self.said(laid(addi(7, 0, 1), sw(7, SHARED), sw(0, SHARED), beq(0, 0, -8)), "--bad", "hang")
        self.assertEqual(status, 0, said)
        self.assertIn("the state comes again", said)

    def test_limit(self):
        for code in (self.COUNTS, self.COUNTS_IN_MEMORY, self.PRINTS):
            status, said = self.said(code, "--bad", "hang", "--steps", "5000")
            self.assertEqual(status, 1, said)
            self.assertIn("but 1 run was left at the limit of steps", said)

    def test_limit_of_tries(self):
        status, said = command("search", RACE / "race.elf", 4096, "--bad", "exit 0 = 3", "--out", os.devnull, "--tries", "100")
        self.assertEqual(status, 1, said)
        self.assertRegex(said, "no order without a forced switch among [0-9]+ places ends so, in [0-9]+ runs\n"
                               "the limit of tries was met with 1 forced: [0-9]+ runs of them tried, the rest isn't covered")

    def test_no_end_of_that_kind(self):
        status, said = self.said(self.GIVES_UP, "--bad", "hang", "--bad", "fault")
        self.assertEqual(status, 1, said)
        self.assertIn("no order ends so, with however many switches", said)

    def test_fault(self):
        status, said = self.said(laid(0), "--bad", "fault 0 = 2")
        self.assertEqual(status, 0, said)
        self.assertIn("thread 0 faulted, cause 2", said)

    def test_chunks(self):
        """A chunk of more than a standard size is several commits, and none ends between an LR and its SC unless it is forced."""
        code = laid(addi(6, 0, SHARED), addi(9, 0, 1000), atomic(LR, 7, 6, 0), addi(7, 7, 1), atomic(SC, 8, 6, 7), addi(9, 9, -1),
                    bne(9, 0, -16), *call(0))
        status, said = self.said(code, "--bad", "word 400 = 1000")
        self.assertEqual(status, 0, said)
        self.assertIn("found with 0 forced switches, in 1 run", said)
        self.assertIn("3 commits, 0 switches, 0 forced; walked", said)
        status, said = self.said(code, "--bad", "word 400 = 999")
        self.assertIn("found with 1 forced switch", said)
        self.assertIn("0 switches, 0 forced, 1 chunk ended early; walked", said)
        far = laid(addi(6, 0, SHARED), addi(9, 0, 2047), atomic(LR, 7, 6, 0), addi(9, 9, -1), bne(9, 0, -4), addi(7, 7, 1),
                   atomic(SC, 8, 6, 7), addi(10, 8, 0), addi(17, 0, 0), 0x73)
        status, said = self.said(far, "--bad", "exit 0 = 1")
        self.assertIn("3 commits, 0 switches, 0 forced; walked", said)

    def test_devices(self):
        """Input is read, and put on the console; a pipe gives back what was put into it; random bytes are a plan's."""
        code = laid(addi(10, 0, 9), addi(11, 0, SHARED), addi(12, 0, 2), *call(3), addi(10, 0, 8), addi(12, 0, 2), *call(2),
                    addi(10, 0, 3), addi(12, 0, 2), *call(2), addi(10, 0, 3), addi(11, 0, SHARED + 4), *call(3),
                    addi(10, 0, SHARED + 8), addi(11, 0, 4), *call(4), lw(10, SHARED + 8), *call(0))
        with tempfile.NamedTemporaryFile() as given:
            given.write(b"hi there")
            given.flush()
            status, said = self.said(code, "--bad", "console = hi and word 404 = 0x6968 and exit 0 = 0xB96C55CA", "--input", given.name,
                                     "--seed", "5")
        self.assertEqual(status, 0, said)

    def test_interrupt(self):
        ticks = EXAMPLES / "interrupt/ticks.elf"
        status, said = command("search", ticks, 4096, "--bad", "exit 0 > 2", "--out", os.devnull, "--raise", "0:1", "--raise", "0:2")
        self.assertEqual(status, 1, said)
        self.assertIn("no order ends so, with however many switches", said)
        with tempfile.TemporaryDirectory() as folder:
            log = Path(folder) / "a.log"
            status, said = command("search", ticks, 4096, "--bad", "exit 0 = 2", "--out", log, "--raise", "0:1", "--raise", "0:2")
            self.assertEqual(status, 0, said)
            self.assertIn("0 forced, 2 interrupts; walked", said)

    def test_refused_words(self):
        for words in (["--bad", "exit 0"], ["--bad", "word nothing = 1"], ["--bad", "hang 99"], ["--bad", "console has"],
                      ["--bad", "exit 0 = 4294967296"], ["--bad", "'"], ["--bad", "hang", "--raise", "x"]):
            self.assertEqual(self.said(self.WAITS, *words)[0], 2, words)


@unittest.skipUnless(CAN_BUILD, NO_COMPILER)
class Judging(unittest.TestCase):
    """A find that isn't one is refused, and nothing is written."""

    def told(self, image, condition):
        names = Names(image)
        return searched(image, read_condition([condition], names)).told, read_condition([condition], names)

    def judged(self, file, told, condition):
        judge = Judge(file, "4096", condition)
        with contextlib.nullcontext() if support.can_walk() else mock.patch.object(Judge, "walked", played_account):
            return judge.judged(told)

    def test_planted_faults(self):
        race = read_image((RACE / "race.elf").read_bytes(), 4096)
        told, condition = self.told(race, COUNT_IS_WRONG)
        self.judged(RACE / "race.elf", told, condition)
        lines = told.account.split(b"\n")
        load = next(j for j, line in enumerate(lines) if line.startswith(b"l 00000600"))
        lines[load] = b"l 00000600 00000099"
        with self.assertRaisesRegex(Differs, "line %d of the account" % (load + 1)):
            self.judged(RACE / "race.elf", told._replace(account=b"\n".join(lines)), condition)
        with self.assertRaisesRegex(Differs, "doesn't meet the condition"):
            self.judged(RACE / "race.elf", told, read_condition(["exit 0 = 0"], Names(race)))
        longer = told.log._replace(sizes=[told.log.sizes[0] - 1, *told.log.sizes[1:]])
        with self.assertRaises(Differs):
            self.judged(RACE / "race.elf", told._replace(log=longer), condition)

    def test_false_hang(self):
        file = EXAMPLES / "sleep/sleep.elf"
        told, condition = self.told(read_image(file.read_bytes(), 4096), "hang")
        self.assertEqual(self.judged(file, told, condition).looped, 3)
        thread, loop = next((k, commits) for k, commits in told.loops.items() if commits[-1][0] > 0)
        shorter = told.loops | {thread: loop[:-1] + [(loop[-1][0] + 1, None)]}
        with self.assertRaisesRegex(Differs, "thread %d doesn't come back" % thread):
            self.judged(file, told._replace(loops=shorter), condition)
        with self.assertRaisesRegex(Differs, "doesn't come back"):
            self.judged(file, told._replace(loops=told.loops | {thread: None}), condition)


class Conditions(unittest.TestCase):
    ACCOUNT = (b"c 0 0 0\no 8 6869\nc 1 0 0\no 8 21\nc 2 0 0\n" b"t 0 00000000 ended:7 00000000 0 00000000\n"
               b"t 1 00000000 fault:5 00000000 0 00000000\nt 2 00000000 live 00000000 0 00000000\n"
               b"m 00000400 00000000" + b"05000000" + b"00" * 24 + b"\nend complete 3\n")

    def test_meets(self):
        names = Names(read_image((RACE / "race.elf").read_bytes(), 4096))
        ended = Ended(self.ACCOUNT)
        for text, meets in (("exit 0 = 7", True), ("exit 0 != 7", False), ("exit any > 6", True), ("exit 1 = 5", False),
                            ("exit 9 = 0", False), ("fault", True), ("fault 1 = 5", True), ("fault 1 = 7", False), ("fault 0", False),
                            ("hang", True), ("hang 2", True), ("hang 0", False), ("word 404 = 5", True), ("word 400+4 >= 0x5", True),
                            ("word counter = 0", True), ("word 400 != 0", False), ("console = hi!", True), ("console != hi!", False),
                            ("console has 'i!'", True), ("console has x", False), (r"console = '\x68i\x21'", True),
                            ("exit 0 = 7 and hang 2", True), ("exit 0 = 7 and hang 1", False)):
            self.assertEqual(ended.meets(read_condition([text], names), True), meets, text)
        self.assertTrue(ended.meets(read_condition(["hang 1", "fault 1"], names), True))
        self.assertFalse(ended.meets(read_condition(["hang"], names), False))
        self.assertTrue(ended.meets(read_condition(["exit 0 = 7"], names), False))

    def test_bad_texts(self):
        names = Names(read_image((RACE / "race.elf").read_bytes(), 4096))
        for text in ("", "exit", "exit 0 == 1", "exit x = 1", "word 404", "console", "console = a b", "hang 0 1", "exit 0 = 0 and", "fish"):
            with self.assertRaises(BadCondition, msg=text):
                read_condition([text], names)


if __name__ == "__main__":
    unittest.main()
