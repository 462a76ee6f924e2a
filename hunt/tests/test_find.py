"""hunt/find finds what fails in an image of sdk/cc and tells it, says what it has covered otherwise, and leaves others' files alone.
The images are those of programs in sdk/examples; `polls.elf` is stopflag.c, mended."""

import contextlib
import importlib.machinery
import importlib.util
import io
import json
import os
import re
import shutil
import subprocess
import tempfile
import time
import unittest
from pathlib import Path
from unittest import mock

import support
from lib.account import program
from lib.finding import read_program
from lib.found import command_in
from lib.folded import MOST_ROWS, folded
from lib.hangs import waits
from lib.logs import write_log
from lib.story import KEY, OWN, SHARED, Row, Turn
from lib.storylines import row_lines
from lib.trace import Context, open_trace
from lib.waiting import waiting_lines
from test_guide import HAS_LINES

CAN_BUILD = shutil.which(os.environ.get("CC", "cc")) is not None
IMAGES, EXAMPLES = support.TOP / "hunt/tests/images", support.TOP / "sdk/examples"
LEFT_OUT = "hunt/find, since there is no C compiler for its engine, or the proved program isn't built"
NO_LINES = "what hunt/find says of source lines, since pyelftools isn't there"
NO_CROSS_COMPILER = "hunt/find of sources, since there is no compiler for RISC-V"


def without_counts(text):
    return re.sub(r"in \d+ runs?, \d+\.\d s \(\d+\.\d\d s of search\)", "in .. runs", text)


def find(*words):
    """What hunt/find ends with, what it says, and what it says on standard error."""
    loader = importlib.machinery.SourceFileLoader("hunt_find", str(support.TOP / "hunt/find"))
    module = importlib.util.module_from_spec(importlib.util.spec_from_loader(loader.name, loader))
    loader.exec_module(module)
    said, errors = io.StringIO(), io.StringIO()
    with mock.patch("sys.argv", ["find", *map(str, words)]), contextlib.redirect_stdout(said), contextlib.redirect_stderr(errors):
        return module.main(), said.getvalue(), errors.getvalue()


class InScratch(unittest.TestCase):
    def setUp(self):
        scratch = tempfile.TemporaryDirectory()
        self.addCleanup(scratch.cleanup)
        self.out = Path(scratch.name) / "out"

    def found(self, name, *words):
        return find(IMAGES / name, "--out", self.out, *words)


@unittest.skipUnless(HAS_LINES, NO_LINES)
@unittest.skipUnless(CAN_BUILD and support.can_walk(), LEFT_OUT)
class Lines(InScratch):
    def test_what_is_told(self):
        status, said, _ = self.found("account.elf")
        self.assertEqual(status, 1)
        self.assertIn("account.elf fails with 1 forced switch, found in ", said)
        self.assertIn("thread 0 (main) ended with 134: main, account.c:28\n", said)
        self.assertIn("console: account.c:28: main: assertion failed: balance == 115\n", said)
        order = said.partition("the order:")[2]
        self.assertEqual(order.count("-- forced switch: it could have gone on"), 1)
        self.assertRegex(order, r"loads +balance +\w+ +add, account.c:12\n +-- forced")

    def test_locks_of_a_circle(self):
        status, said, _ = self.found("deadlock.elf")
        self.assertEqual(status, 1)
        for line in ("no thread goes on, in whatever order", "thread 0 (main) waits for the end of thread 1, main, deadlock.c:37",
                     "thread 1 (first) waits for mutex b, first, deadlock.c:11; holds a since first, deadlock.c:9",
                     "thread 2 (second) waits for mutex a, second, deadlock.c:25; holds b since second, deadlock.c:24",
                     "so thread 1 waits for thread 2, thread 2 waits for thread 1"):
            self.assertIn("  %s\n" % line, said)
        self.assertRegex(said, r"thread \d is left after it stores 00000001 to ([ab]) \(.*; thread \d stores 00000001 to (?!\1)[ab] \(")

    def test_waits_of_trace(self):
        """What the library's notes say, and not its words; of a thread that could go on it says so."""
        self.found("deadlock.elf")
        trace = open_trace(self.out / "deadlock.elf", read_program(self.out / "deadlock.elf").memory, self.out / "found.log")
        self.assertEqual([line.partition(", ")[0] for line in waiting_lines(trace)], [
            "thread 0 (main) waits for the end of thread 1", "thread 1 (first) waits for mutex b", "thread 2 (second) waits for mutex a",
            "so thread 1 waits for thread 2"])
        log = trace.log
        cut = log._replace(count=log.count - 1, order=log.order[:-1], sizes=log.sizes[:-1])
        while trace.longer is None or any(wait.loop for wait in waits(trace)[1:]):
            cut = cut._replace(count=cut.count - 1, order=cut.order[:-1], sizes=cut.sizes[:-1])
            (self.out / "cut.log").write_bytes(write_log(cut))
            trace = open_trace(self.out / "deadlock.elf", trace.image.size, self.out / "cut.log")
        self.assertTrue(any("could go on" in line for line in waiting_lines(trace)))

    def test_freed_block(self):
        _, said, _ = self.found("usedafterfree.elf")
        self.assertRegex(said, r"thread 2 loads from the block of usedafterfree.c:13 \(commit \d+, read_latest, usedafterfree.c:37\), "
                               r"which thread 1 has freed \(commit \d+, replace, usedafterfree.c:25\)\n")
        self.assertNotIn("loads from the block of usedafterfree.c:13 (main", said)  # as the library does when it looks at the heap
        self.assertRegex(said, r"frees +block of usedafterfree.c:13 +replace, usedafterfree.c:25\n")


@unittest.skipUnless(CAN_BUILD and support.can_walk(), LEFT_OUT)
class Found(InScratch):
    def test_files(self):
        self.found("account.elf")
        files = {path.name for path in self.out.iterdir()}
        self.assertEqual(files, {"account.elf", "found.log", "found.html", "found.json", "replay.toml"})
        self.assertEqual((self.out / "account.elf").read_bytes(), (IMAGES / "account.elf").read_bytes())

    def test_replayed_on_one_core_and_on_eight(self):
        self.found("account.elf")
        memory = next(line.split()[2] for line in (self.out / "replay.toml").read_text().splitlines() if line.startswith("memory"))
        walked = subprocess.run([*program(), "walk", "account.elf", memory, "found.log"], cwd=self.out, capture_output=True).stdout
        plan = (self.out / "replay.toml").read_text()
        for cores in (4, 1, 8):
            (self.out / "replay.toml").write_text(plan.replace("cores = 4", "cores = %d" % cores))
            subprocess.run([*program(), "run", "replay.toml"], cwd=self.out, check=True, stdout=subprocess.DEVNULL)
            self.assertEqual((self.out / "replayed.account").read_bytes(), walked)

    def test_what_a_replay_shows(self):
        for name in ("account.elf", "deadlock.elf"):
            _, said, _ = self.found(name)
            printed = subprocess.run([*program(), "run", "replay.toml"], cwd=self.out, check=True, capture_output=True, text=True).stdout
            line = re.search(r"which prints `(s 0 complete \d+)`, since", said)[1]
            self.assertIn(line, printed.splitlines())
            command, states = re.search(r"^  (grep .*) shows how the threads ended: (.*)$", said, re.M).groups()
            shown = subprocess.run(command, shell=True, cwd=self.out, check=True, capture_output=True, text=True).stdout
            self.assertEqual(", ".join("`%s`" % row for row in shown.splitlines()), states)

    def test_the_command_that_replays(self):
        """As it is printed, and on the plan's first line, if `delorean` isn't installed."""
        with mock.patch.dict(os.environ, PATH="/usr/bin:/bin"):
            _, said, _ = self.found("account.elf")
            command = re.search(r"^to replay it: (.*)$", said, re.M)[1]
            printed = subprocess.run(command, shell=True, check=True, capture_output=True, text=True).stdout
        self.assertRegex(printed, r"(?m)^s 0 complete \d+$")
        self.assertIn("In this folder: %s\n" % command.partition(" && ")[2], (self.out / "replay.toml").read_text())

    def test_the_command_is_short(self):
        with mock.patch.dict(os.environ, PATH="/usr/bin:/bin", DELOREAN="/home/me/delorean/bin/delorean"):
            self.assertEqual(command_in("/home/me/src/prog.found"), "../../delorean/bin/delorean")
            self.assertEqual(command_in("/tmp/prog.found"), "/home/me/delorean/bin/delorean")

    def test_time(self):
        begun = time.monotonic()
        _, said, _ = self.found("account.elf")
        whole, search = re.search(r" runs?, (\d+\.\d) s \((\d+\.\d\d) s of search\)\n", said).groups()
        self.assertLess(float(search), float(whole))
        self.assertGreater(float(whole), (time.monotonic() - begun) / 2)

    def test_json(self):
        status, said, _ = self.found("deadlock.elf", "--json")
        told = json.loads(said)
        self.assertEqual((status, told["status"], told["found"]["forced"], told["found"]["hangs"]), (1, "found", 1, True))
        self.assertEqual([t["function"] for t in told["found"]["threads"]], ["main", "first", "second"])
        stored = json.loads((self.out / "found.json").read_text())
        self.assertEqual({key: stored[key] for key in told}, told)


@unittest.skipUnless(HAS_LINES, NO_LINES)
@unittest.skipUnless(CAN_BUILD and support.can_walk(), LEFT_OUT)
class Page(InScratch):
    """What find.md shows is said of the images of the same programs, but for numbers of runs and seconds."""

    def test_what_it_shows(self):
        blocks = re.findall(r"^    \$ \.\./\.\./hunt/find (\w+)\.c\n((?:    .*\n|\n)+)", (support.TOP / "hunt/find.md").read_text(), re.M)
        self.assertEqual([name for name, _ in blocks], ["account", "deadlock"])
        for name, block in blocks:
            with self.subTest(name):
                said = self.found(name + ".elf")[1].replace(str(IMAGES / name) + ".elf", name + ".c")
                for line in block.splitlines():
                    if line.strip() != "..":
                        self.assertIn(without_counts(line[4:]) + "\n", without_counts(said))


@unittest.skipUnless(CAN_BUILD and support.can_walk(), LEFT_OUT)
class NotFound(InScratch):
    def test_all_orders(self):
        for name in ("account-mended.elf", "polls.elf"):  # in the second, a thread that polls under a lock isn't a hang
            status, said, _ = self.found(name)
            self.assertEqual(status, 0, said)
            self.assertIn("%s: no order fails, with however many switches: all states were met, " % name, said)
            self.assertFalse(self.out.exists())

    def test_bound(self):
        status, said, _ = self.found("account.elf", "--switches", "0")
        self.assertEqual(status, 0)
        self.assertRegex(said, r"account.elf: no order without a forced switch among \d+ places fails, in \d+ runs?, ")

    def test_limits(self):
        status, said, _ = self.found("polls.elf", "--steps", "100")
        self.assertEqual(status, 3)
        self.assertIn("came to the limit of steps", said)
        self.assertIn("to cover more: --steps allows longer runs", said)
        self.assertNotIn("no order", said)
        status, said, _ = self.found("polls.elf", "--seconds", "0.01")
        self.assertEqual(status, 3)
        self.assertIn("the limit of seconds was met", said)
        self.assertIn("to cover more: --seconds gives more time", said)
        self.assertNotIn("to cover more", self.found("account-mended.elf")[1])

    def test_further_condition(self):
        status, said, _ = self.found("account-mended.elf", "--bad", "word balance = 115")
        self.assertEqual(status, 1)
        self.assertIn("no forced switch", said)

    def test_json(self):
        status, said, _ = self.found("account-mended.elf", "--json", "--switches", "1")
        told = json.loads(said)
        self.assertEqual((status, told["status"], told["search"]["all orders up to"]), (0, "clear", 1))
        self.assertTrue(told["covered"][0].startswith("no order with at most 1 forced switch"))


@unittest.skipUnless(CAN_BUILD and support.can_walk(), LEFT_OUT)
class Folders(InScratch):
    def test_found_again(self):
        self.found("account.elf")
        (self.out / "mine.txt").write_text("mine")
        self.assertEqual(self.found("deadlock.elf")[0], 1)
        self.assertFalse((self.out / "account.elf").exists())
        self.assertEqual((self.out / "mine.txt").read_text(), "mine")

    def changed(self, name, *words):
        """What is said of the program if it is this one by now."""
        image = self.out.parent / "prog.elf"
        shutil.copyfile(IMAGES / name, image)
        return find(image, "--out", self.out, *words)

    def assert_kept(self, status, given):
        self.assertEqual(given[0], status)
        self.assertIn("%s stays as it is: an earlier search has found that\n" % self.out, given[1])
        self.assertEqual({path.name for path in self.out.iterdir()}, {"prog.elf", "found.log", "found.html", "found.json", "replay.toml"})

    def test_what_was_found_stays_if_nothing_new_is_learned(self):
        self.assertEqual(self.changed("account.elf")[0], 1)
        self.assert_kept(3, self.changed("account.elf", "--steps", "10"))
        self.assert_kept(0, self.changed("account.elf", "--switches", "0"))
        self.assert_kept(0, self.changed("account-mended.elf", "--switches", "0"))
        self.assert_kept(0, self.found("account-mended.elf"))
        self.assertEqual(json.loads(self.changed("account-mended.elf", "--tick", "9", "--json")[1])["kept"], str(self.out))

    def test_what_was_found_goes_if_the_program_was_mended(self):
        self.changed("account.elf")
        (self.out / "mine.txt").write_text("mine")
        status, said, _ = self.changed("account-mended.elf", "--switches", "1")
        self.assertEqual((status, "stays" in said), (0, False))
        self.assertEqual(sorted(path.name for path in self.out.iterdir()), ["found.json", "mine.txt"])
        self.assertEqual(self.changed("account.elf")[0], 1)

    def test_others_folder(self):
        self.out.mkdir()
        (self.out / "found.log").write_text("of somebody else")
        status, said, errors = self.found("account.elf")
        self.assertEqual((status, said), (2, ""))
        self.assertIn("has files that delorean-find hasn't written", errors)
        self.assertEqual((self.out / "found.log").read_text(), "of somebody else")

    def test_no_folder(self):
        self.out.write_text("a file")
        self.assertEqual(self.found("account.elf")[0], 2)
        self.assertEqual(find(IMAGES / "account.elf", "--out", self.out.parent / "no/where")[0], 2)
        self.assertEqual(self.out.read_text(), "a file")


class Folded(unittest.TestCase):
    def turn(self, *ranks):
        """A turn with a row of each rank; the step of a row is its place."""
        return Turn(Context(1, 0), "work", [Row("loads", "w%d" % j, rank=rank, step=j) for j, rank in enumerate(ranks)], False)

    def shown(self, *turns, steps=()):
        return [(turn is not None, [row if isinstance(row, int) else row.step for row in rows] if turn else rows)
                for turn, rows in folded(list(turns), frozenset(steps))]

    def test_a_short_story_is_told_whole(self):
        self.assertEqual(self.shown(self.turn(*[OWN] * MOST_ROWS)), [(True, list(range(MOST_ROWS)))])

    def test_what_is_a_threads_own_is_left_out_first(self):
        self.assertEqual(self.shown(self.turn(SHARED, *[OWN] * 60, SHARED, KEY)), [(True, [0, 60, 61, 62])])

    def test_two_rows_beside_a_switch_and_what_matters_are_told(self):
        ranks = [SHARED] * 60
        ranks[20] = KEY
        self.assertEqual(self.shown(self.turn(*ranks), steps=[30]), [(True, [0, 1, 18, 20, 9, 30, 27, 58, 59])])

    def test_turns_in_the_middle_are_left_out(self):
        turns = [self.turn(SHARED, SHARED)] * 40
        turns[20] = Turn(Context(2, 0), "work", [Row("frees", "b", rank=KEY, step=99)], False)
        shown = self.shown(*turns, steps=[99])
        self.assertEqual([rows for is_turn, rows in shown if not is_turn], [8, 7])
        self.assertEqual(shown[13], (True, [99]))


class Clock(unittest.TestCase):
    def test_code_that_reads_a_clock(self):
        """calls.elf makes each call of the kernel, and copies.elf loads the devices' second word alone. In the images of tests the library has
        the waits until a time, and nothing comes there."""
        for image, wanted in (("examples/calls/calls.elf", True), ("examples/input/copies.elf", False), ("examples/race/race.elf", False)):
            self.assertEqual(read_program(support.TOP / image, 1 << 16).has_clock, wanted, image)
        for image in IMAGES.glob("*.elf"):
            self.assertFalse(read_program(image).has_clock, image)


class Columns(unittest.TestCase):
    def test_a_long_word_is_cut_and_widens_nothing(self):
        rows = [Row("loads", "count", "00000001", "work, a.c:3"), Row("prints", "x" * 100, "", "work, a.c:4"),
                Row("calls", "y" * 50, "", "work, a.c:5")]
        self.assertEqual(list(row_lines(rows)), [
            "loads   count  00000001  work, a.c:3", "prints  %s...  work, a.c:4" % ("x" * 57), "calls   %s  work, a.c:5" % ("y" * 50)])


class Words(unittest.TestCase):
    def test_refused(self):
        race = support.TOP / "examples/race/race.elf"
        for words in ([], ["nothing.elf"], ["-O2"], [race, "-O2"], [race, race], [race, "--switches", "-1"], [race, "--tick", "-1"], [race, "--bad", "exit 0"],
                      [race, "--memory", "5000"], [support.TOP / "hunt/tests/support.py"]):
            with self.subTest(words), tempfile.TemporaryDirectory() as scratch:
                status, said, errors = find(*words, "--out", Path(scratch) / "out")
                self.assertEqual((status, said), (2, ""), errors)
                self.assertTrue(errors.startswith("find: "), errors)

    @unittest.skipUnless(CAN_BUILD and support.can_walk(), LEFT_OUT)
    def test_program_without_the_library(self):
        with tempfile.TemporaryDirectory() as scratch:
            status, said, _ = find(support.TOP / "examples/race/race.elf", "--out", Path(scratch) / "out")
        self.assertEqual(status, 1)
        self.assertIn("race.elf fails with 2 forced switches", said)
        self.assertRegex(said, r"stores +counter +\w+ over \w+ +work")


@unittest.skipUnless(support.tool("riscv64-unknown-elf-gcc") and CAN_BUILD and support.can_walk(), NO_CROSS_COMPILER)
class Sources(InScratch):
    def test_compiled_and_found(self):
        status, said, errors = find(EXAMPLES / "account.c", "--out", self.out)
        self.assertEqual(status, 1, errors)
        self.assertIn("account.c fails with 1 forced switch", said)
        self.assertTrue((self.out / "account.elf").is_file())

    @unittest.skipUnless(HAS_LINES, NO_LINES)
    def test_block_freed_twice(self):
        _, said, _ = find(EXAMPLES / "doublefree.c", "--out", self.out)
        self.assertRegex(said, r"thread \d frees the block of doublefree.c:30 \(commit \d+, close_connection, doublefree.c:18\), which thread \d has freed ")

    def test_words_for_the_compiler(self):
        status, said, errors = find("-DMENDED", EXAMPLES / "account.c", "-O1", "--out", self.out)
        self.assertEqual(status, 0, said + errors)

    def source(self, text):
        path = self.out.parent / "prog.c"
        path.write_text(text)
        return path

    def test_tick(self):
        source = self.source("#include <time.h>\nint main(void) { clock_t first = clock(); return clock() - first > 500; }\n")
        self.assertEqual(find(source, "--out", self.out)[0], 0)
        self.assertEqual(find(source, "--out", self.out, "--tick", "1000")[0], 1)

    @unittest.skipUnless(HAS_LINES, NO_LINES)
    def test_static_variables_of_functions(self):
        source = self.source("static int *mine(void) { static int count[2]; return count; }\n"
                             "static int *other(void) { static int count; return &count; }\n"
                             "int main(void) { mine()[1] = 3; *other() += 2; return *other(); }\n")
        _, said, _ = find(source, "--out", self.out, "-O1", "--bad", "word mine::count+4 = 3 and word other::count = 2")
        self.assertRegex(said, r"stores +mine::count\[1\] +00000003 over")
        self.assertRegex(said, r"stores +other::count +00000002 over")
        _, _, errors = find(source, "--out", self.out, "--bad", "word count = 3")
        self.assertIn("there are several: mine::count, other::count", errors)

    def test_not_compiled(self):
        status, said, errors = find(EXAMPLES / "account.c", "-Dbalance=", "--out", self.out)
        self.assertEqual((status, said), (2, ""))
        self.assertIn("it wasn't compiled", errors)
        self.assertIn("account.c", errors)


if __name__ == "__main__":
    unittest.main()
