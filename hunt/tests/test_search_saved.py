"""A search that is stopped and goes on from a file comes to what it would have come to; and it goes on with nothing else."""

import itertools
import os
import signal
import subprocess
import tempfile
import time
import unittest
from pathlib import Path
from unittest import mock

import support
from all_ends import LIVE, NEVER, outcome
from lib import saving
from lib.conditions import read_condition
from lib.engine import Engine, Options
from lib.image import read_image
from lib.symbols import Names
from locked_programs import locked_program, with_marks
from small_programs import (CODE_OF_THREAD, END_OF_WORDS, SHARED, SIZE, SPAWN, addi, beq, call, elf, image_of, lw, random_program,
                            reserving_step, sets, sw, waiting_step)
from test_search import CAN_BUILD, NO_COMPILER, RACE, command
from test_search_jobs import engine_of
from test_search_states import A, ANSWER, B, ENDS, SEEN, SPAWNS_TWO, laid

FEW = Options(steps=100000)
COVERED = "no order ends so, with however many switches: all states were met, 1310 in "


def ends_in_sittings(image, file, limits=(10**6,), jobs=1):
    """The ends, as met_ends has them, and in how many sittings: each until there were so many runs in all."""
    sittings, told, limits = 0, "tries", iter(limits)
    while told == "tries":
        sittings += 1
        with Engine(image, read_condition([NEVER], Names(image)), FEW) as engine:
            engine.send("jobs %d" % jobs, "stamp x", "save 1000 %s" % file, *(["resume %s" % file] if sittings > 1 else []))
            engine.collect_ends(SHARED, END_OF_WORDS - SHARED)
            result = engine.search(60, next(limits), 1 << 22, 60, on_line=lambda words: None)
            told = result.how
    found = {}
    for end in result.ends:
        if all(status != LIVE for status, _ in end.threads):
            found[outcome(end)] = min(found.get(outcome(end), 1 << 30), end.forced)
    return told, found, any(status == LIVE for end in result.ends for status, _ in end.threads), sittings


@unittest.skipUnless(CAN_BUILD, NO_COMPILER)
class Saved(unittest.TestCase):
    def setUp(self):
        folder = tempfile.TemporaryDirectory()
        self.addCleanup(folder.cleanup)
        self.folder = Path(folder.name)
        self.file = self.folder / "a search"

    def search(self, *words, image="mended.elf"):
        return command("search", RACE / image, 4096, "--bad", "exit 0 != 0", "--out", self.folder / "none.log", *words)

    def programs(self):
        for seed in (1, 4):
            yield image_of(random_program(seed, waiting_step)[0])
            yield image_of(random_program(seed, reserving_step, 2)[0])
            code, _, marks = locked_program(seed)
            yield read_image(with_marks(elf(code), marks), SIZE)

    def test_same_ends(self):
        most = hangs = 0
        for place, image in enumerate(self.programs()):
            expected = ends_in_sittings(image, self.file)[:3]
            for runs, jobs in (15, 1), (40, 3):
                *met, sittings = ends_in_sittings(image, self.file, itertools.count(runs, runs), jobs)
                self.assertEqual(tuple(met), expected, (place, runs, jobs))
                most = max(most, sittings)
            hangs += expected[2]
        self.assertGreater(most, 3)
        self.assertGreater(hangs, 0)

    def test_fewest_forced_switches(self):
        """That thread 2 has seen B as 0 and then as 1 wants no forced switch: it waits for A, thread 1 sets that, and thread 3, which sets B
        only then, comes next. One of the first runs lets thread 1 end before thread 2 comes to its loop. There thread 3 is put off, since
        it would come by force. A later run, maybe of the next sitting, comes to the same state without force."""
        image = laid([*SPAWNS_TWO, addi(10, 0, 3 * CODE_OF_THREAD), *call(SPAWN), *ENDS], [*sets(A, 1), *ENDS],
                     [lw(7, B), lw(5, A), beq(5, 0, -4), lw(8, B), sw(7, SEEN), sw(8, ANSWER), *ENDS],
                     [lw(5, A), beq(5, 0, 8), sw(5, B), *ENDS])
        by_hand = {(1, 0, 0, 0, 0, 0): 0, (1, 1, 0, 0, 0, 0): 0, (1, 1, 0, 1, 0, 0): 0, (1, 1, 1, 1, 0, 0): 0}
        for first in range(1, 7):
            self.assertEqual(ends_in_sittings(image, self.file, (first, 10**6)), ("all", by_hand, False, 2), first)

    def test_sittings(self):
        """The bounds that were done are told again, and the numbers go on."""
        status, said = self.search("--tries", 200, "--save", self.file)
        self.assertEqual(status, 1, said)
        self.assertIn("to go on: the same command with --resume %s" % self.file, said)
        status, said = self.search("--resume", self.file)
        self.assertEqual(status, 1, said)
        self.assertIn("with 1 forced: done, 71 runs so far", said)
        self.assertIn("going on from %s: 200 runs and " % self.file, said)
        self.assertIn(COVERED, said)
        self.assertNotIn("to go on", said)
        status, said = self.search("--resume", self.file, "--jobs", 3)
        self.assertIn(COVERED, said)

    def test_found_later(self):
        self.search("--tries", 100, "--save", self.file, image="race.elf")
        status, said = self.search("--resume", self.file, image="race.elf")
        self.assertEqual(status, 0, said)
        self.assertIn("found with 2 forced switches", said)

    def test_killed(self):
        """What was saved before it was killed is whole."""
        slow = os.environ | {"DELOREAN_SEARCH_DELAYS": "take:*:200000,place:*:5000", "DELOREAN_SAVE_EVERY": "0.1"}
        words = [RACE / "mended.elf", "4096", "--bad", "exit 0 != 0", "--out", os.devnull, "--save", self.file, "--jobs", "2"]
        search = subprocess.Popen([support.TOP / "hunt/search", *words], stdout=subprocess.PIPE, stderr=subprocess.STDOUT, env=slow)
        while not self.file.exists():
            time.sleep(0.01)
        os.kill(engine_of(search.pid), signal.SIGKILL)
        search.communicate()
        self.assertEqual(search.returncode, 2)
        status, said = self.search("--resume", self.file)
        self.assertIn("going on from", said)
        self.assertIn(COVERED, said)

    def test_stopped(self):
        """Ctrl-C saves it."""
        slow = os.environ | {"DELOREAN_SEARCH_DELAYS": "take:*:200000,place:*:20000"}
        words = [RACE / "mended.elf", "4096", "--bad", "exit 0 != 0", "--out", os.devnull, "--save", self.file]
        search = subprocess.Popen([support.TOP / "hunt/search", *words], stdout=subprocess.PIPE, stderr=subprocess.STDOUT, env=slow, text=True)
        engine_of(search.pid)
        time.sleep(1)
        search.send_signal(signal.SIGINT)
        said, _ = search.communicate()
        self.assertEqual(search.returncode, 130, said)
        self.assertIn("it was stopped", said)
        self.assertIn(COVERED, self.search("--resume", self.file)[1])

    def test_refused(self):
        self.search("--tries", 200, "--save", self.file)
        for words, why in (((), "of another program"), (("--switches", 3), "with other settings"), (("--turn", 9), "with other settings")):
            status, said = self.search("--resume", self.file, *words, image="mended.elf" if words else "race.elf")
            self.assertEqual(status, 2, said)
            self.assertIn("search: %s was saved %s" % (self.file, why), said)
        with mock.patch.object(saving, "built", lambda: Path("engine-other")):
            self.assertIn("by another version of the search", self.search("--resume", self.file)[1])
        whole = self.file.read_bytes()
        middle = len(whole) // 2
        for damaged in whole[:-1], whole[:middle], whole[:middle] + b"?" + whole[middle + 1:], whole + b"?", whole[:whole.index(b"\n") + 1]:
            self.file.write_bytes(damaged)
            status, said = self.search("--resume", self.file)
            self.assertEqual(status, 2, said)
            self.assertIn("%s is damaged" % self.file, said)
        for other in b"", b"delorean\n", b"\xff" * 1000:
            self.file.write_bytes(other)
            status, said = self.search("--resume", self.file)
            self.assertEqual((status, said), (2, "search: %s isn't a search that was saved\n" % self.file))
        self.assertEqual(self.search("--resume", self.folder / "no")[0], 2)
        self.assertEqual(self.search("--save", self.folder / "no/no")[0], 2)

    def test_too_large(self):
        """That it can't be saved is said, and the search goes on."""
        words = [RACE / "mended.elf", "4096", "--bad", "exit 0 != 0", "--out", os.devnull, "--save", self.file, "--tries", "200"]
        ran = subprocess.run(["sh", "-c", 'ulimit -f 9; exec "$@"', "sh", support.TOP / "hunt/search", *words], capture_output=True, text=True)
        self.assertEqual(ran.stderr, "search: %s isn't saved: File too large\n" % self.file)
        self.assertIn("the limit of tries was met", ran.stdout)
        self.assertNotIn("to go on: the same", ran.stdout)
        self.assertFalse(self.file.exists())


if __name__ == "__main__":
    unittest.main()
