"""A log whose walk ends badly is never denied by shrink, and what it writes ends as it must. A hang is told from a log that ends too
early, and a limit from either. The logs are those of seeds, some that are cut, and some of small programs."""

import re
import subprocess
import tempfile
import unittest
from argparse import Namespace
from pathlib import Path
from unittest import mock

import support
from lib import searching
from lib.aims import Tries
from lib.conditions import Ended, read_condition
from lib.engine import EXACTLY, TO_LAST_TURN, Engine, Turn
from lib.image import read_image
from lib.judge import Differs, Judge
from lib.logs import read_log, write_log
from lib.logtext import packed
from lib.recording import Recording
from lib.symbols import Names
from recordings_of_seeds import FAILING, gone_on, recorded, sphere_of
from small_programs import ADD, LR, SC, SHARED, addi, atomic, beq, call, lw, sw
from test_search import CAN_BUILD, NO_COMPILER, command, laid, written


def walked(image, memory, log):
    """The end that the walk tells."""
    return Ended(Judge(image, memory, []).walked(log))


def names_of(folder):
    image, memory = sphere_of(folder)
    return Names(read_image(image.read_bytes(), memory))


def own_end(ended):
    """The threads that have ended or faulted, and how."""
    return {k: end for k, end in enumerate(ended.threads) if end[0] != "live"}


@unittest.skipUnless(CAN_BUILD, NO_COMPILER)
@unittest.skipUnless(support.can_walk(), support.NOT_BUILT)
class Shrunk(unittest.TestCase):
    def setUp(self):
        folder = tempfile.TemporaryDirectory()
        self.addCleanup(folder.cleanup)
        self.log, self.small = Path(folder.name) / "a.log", Path(folder.name) / "small.log"

    def shrunk(self, image, memory, log, *words):
        """Status, what is said, and the end that the walk tells of what is written, or None."""
        self.log.write_bytes(log)
        self.small.unlink(missing_ok=True)
        status, said = command("shrink", image, memory, self.log, "--out", self.small, *words)
        self.assertEqual(self.small.exists(), status == 0, said)
        return status, said, walked(image, memory, self.small.read_bytes()) if status == 0 else None


class Seeds(Shrunk):
    """Of each example the logs with which it fails."""

    def failing(self):
        for example in FAILING:
            for seed in example.seeds:
                log, account = recorded(example.folder, seed)
                with self.subTest(example.folder.name, seed=seed):
                    yield example, log, Ended(account)

    def test_the_end_stays(self):
        for example, log, ended in self.failing():
            if own_end(ended):
                status, said, small = self.shrunk(*sphere_of(example.folder), log)
                self.assertEqual(status, 0, said)
                self.assertEqual(own_end(small) | own_end(ended), own_end(small), said)
                self.assertLessEqual(int(re.search(r" (\d+) forced", said)[1]), example.most, said)

    def test_bad_ends(self):
        """By a condition; and a hang is one if the interpreter in Python doesn't come to an end either."""
        told = set()
        for example, log, ended in self.failing():
            status, said, small = self.shrunk(*sphere_of(example.folder), log, "--bad", example.bad)
            after = gone_on(example.folder, log)
            live = [k for k, (status_of, _) in enumerate(ended.threads) if status_of == "live"]
            hung = [k for k in live if after[k][0] == "live"]
            self.assertEqual(bool(re.search("hangs?: from the log's end", said)), bool(hung), said)
            self.assertEqual("the log ends too early" in said, hung != live, said)
            told.add((bool(live), bool(hung)))
            self.assertEqual(status, 1 if example.bad == "hang" and not hung else 0, said)
            if status == 0:
                self.assertTrue(small.meets(read_condition([example.bad], names_of(example.folder)), True), said)
        self.assertEqual(told, {(False, False), (True, False), (True, True)})


class EverySeed(Shrunk):
    """Every log with which an example fails, of seeds 1 to 60, as hunt/seeds keeps them. What shrink does first is done of each:
    it walks the log, takes it exactly, and judges the end. So none is denied, and what is written has been walked."""

    def test_none_is_denied(self):
        with mock.patch.object(searching, "explained", lambda *_: []):
            for example in FAILING:
                with tempfile.TemporaryDirectory() as folder:
                    kept = Path(folder) / "kept"
                    subprocess.run([support.TOP / "hunt/seeds", "plan.toml", "--bad", example.bad, "--seeds", "1-60", "--keep", kept],
                                   cwd=example.folder, check=True, stdout=subprocess.DEVNULL)
                    logs = {int(file.stem[5:]): file.read_bytes() for file in kept.glob("seed-*.log")}
                self.assertGreater(len(logs), 0)
                for seed, log in logs.items():
                    self.is_taken(example, seed, log)

    def is_taken(self, example, seed, log):
        sphere = sphere_of(example.folder)
        status, said, ended = self.shrunk(*sphere, log, "--bad", example.bad, "--seconds", "0")
        self.assertEqual(status, 0, (example.folder.name, seed, said))
        condition = read_condition([example.bad], names_of(example.folder))
        self.assertTrue(ended.meets(condition, True), (example.folder.name, seed, said))
        if example.bad != "hang":
            self.assertTrue(walked(*sphere, log).meets(condition, True), (example.folder.name, seed))


class OfRing(Shrunk):
    RING = next(example for example in FAILING if example.folder.name == "no-second-look")

    def ring(self, *words):
        """Seed 27, whose sum is 19."""
        log, _ = recorded(self.RING.folder, 27)
        return self.shrunk(*sphere_of(self.RING.folder), log, *words)


class Words(OfRing):
    """What is kept, and how it is chosen."""

    OTHERWISE = "the log that was given ends otherwise; --same keeps its end"

    def test_another_end_has_fewer_forced_switches(self):
        """Two are enough for a wrong sum, and more are left for this one."""
        _, said, ended = self.ring("--bad", "exit 0 != 0", "--same")
        self.assertEqual(ended.threads[0], ("ended", 19))
        self.assertNotIn(self.OTHERWISE, said)
        self.assertIn(", 3 forced", said)
        _, said, ended = self.ring("--bad", "exit 0 != 0")
        self.assertNotEqual(ended.threads[0], ("ended", 19))
        self.assertIn(self.OTHERWISE, said)
        self.assertIn(", 2 forced", said)

    def test_own_end_unless_another_has_fewer(self):
        for forced, taken in (((2, 2), "own"), ((3, 2), "other"), ((2, 3), "own")):
            tries = Tries(None, None, 60)
            found = {"own": ("own", (forced[0], 9), None), "other": ("other", (forced[1], 1), None)}
            with mock.patch.object(tries, "found", found.get):
                self.assertEqual(tries.least(["own", "other"])[0], taken)

    def test_same_end_and_a_condition(self):
        status, said, ended = self.ring("--same", "--bad", "word count = 0 and exit 0 > 10")
        self.assertEqual((status, ended.threads[0], ended.word(self.word("count"))), (0, ("ended", 19), 0), said)

    def word(self, name):
        return names_of(self.RING.folder).word(name)

    def test_good_end_is_told(self):
        status, said, _ = self.ring("--bad", "exit 0 = 3")
        self.assertEqual(status, 1)
        self.assertIn("the log's run ends otherwise:\nthread 0 ended with 19\n", said)

    def cut(self, commits):
        """The log up to a commit, at which threads are live."""
        log = read_log(recorded(self.RING.folder, 27)[0])
        return write_log(log._replace(count=commits, order=log.order[:commits], sizes=log.sizes[:commits]))

    def test_word_at_the_end_of_a_cut_log(self):
        """While the ring is filled, there is a moment with one number in it. At the end of all there is none."""
        image, memory = sphere_of(self.RING.folder)
        place = next(n for n in range(20, 300) if walked(image, memory, self.cut(n)).word(self.word("count")) == 1)
        for words in ([], ["--same"]):
            status, said, ended = self.shrunk(image, memory, self.cut(place), "--bad", "word count = 1", *words)
            self.assertEqual((status, ended.word(self.word("count"))), (0, 1), said)
            self.assertIn("others could go on; it is so where the log ends", said)

    def test_no_end_to_stay_with(self):
        image, memory = sphere_of(self.RING.folder)
        status, said, _ = self.shrunk(image, memory, self.cut(20))
        self.assertEqual(status, 1, said)
        self.assertIn("no thread has ended in the log, and none hangs: say by --bad what a bad end is", said)

    def test_limit_of_seconds(self):
        status, said, ended = self.ring("--seconds", "0")
        self.assertEqual((status, ended.threads[0]), (0, ("ended", 19)), said)
        self.assertIn("; the limit of seconds was met\n", said)

    def test_log_of_another_program(self):
        log, _ = recorded(self.RING.folder, 27)
        status, said, _ = self.shrunk(support.TOP / "examples/race/race.elf", 4096, log)
        self.assertEqual(status, 2)
        self.assertIn("the log doesn't fit the image: end diverged", said)


class Limits(Shrunk):
    """Logs of one commit, of thread 0, which counts for ever, waits, or ends later."""

    WAITS = laid(lw(7, SHARED), beq(7, 0, -4))
    COUNTS = laid(addi(5, 5, 1), beq(0, 0, -4))
    COUNTS_IN_MEMORY = laid(addi(5, 5, 1), sw(5, SHARED), beq(0, 0, -8))

    def of_steps(self, code, steps, *words):
        """A log of that many steps of thread 0, shrunk."""
        text = "log 1 order-size 4096 1\np 0 0 %d\n" % steps
        with written(code) as file:
            return self.shrunk(file.name, 4096, write_log(packed(text)), *words)

    def test_neither_a_hang_nor_an_end(self):
        for code in (self.COUNTS, self.COUNTS_IN_MEMORY):
            status, said, _ = self.of_steps(code, 100, "--bad", "hang", "--steps", "5000")
            self.assertEqual(status, 1)
            self.assertIn("whether thread 0 hangs isn't known: the run was left at the limit, 5000 steps after the log's end\n"
                          "so whether it ends badly isn't known\n", said)

    def test_log_longer_than_the_limit(self):
        """What the log itself has is known all the same."""
        status, said, ended = self.of_steps(self.COUNTS_IN_MEMORY, 100, "--bad", "word 400 = 30", "--steps", "10")
        self.assertEqual(status, 1)
        status, said, ended = self.of_steps(self.COUNTS_IN_MEMORY, 100, "--bad", "word 400 = 33", "--steps", "10")
        self.assertEqual((status, ended.word(SHARED)), (0, 33), said)

    def test_state_that_comes_again(self):
        """Each thread changes its word and puts it back, until it sees that the other one has changed its own; then it lets that one
        see the same. Alone neither ends; in turns they may."""
        own, other = SHARED, SHARED + 4
        code = laid(addi(10, 0, 256), addi(11, 0, 0), addi(12, 0, 0), *call(1), addi(7, 0, 1), sw(7, own), sw(0, own), lw(8, other),
                    beq(8, 0, -12), sw(7, own), addi(10, 0, 0), *call(0))
        code |= {256 + at: word for at, word in laid(addi(7, 0, 1), sw(7, other), sw(0, other), lw(8, own), beq(8, 0, -12),
                                                     sw(7, other), addi(10, 0, 0), *call(0)).items()}
        log = write_log(packed("log 1 order-size 4096 3\np 0 0 4\np 1 0 0\np 2 0 9\n"))
        with written(code) as file:
            status, said, _ = self.shrunk(file.name, 4096, log, "--bad", "hang")
            self.assertEqual(status, 0, said)
            self.assertIn("threads 0 and 1 hang: from the log's end the run comes to a state that comes again\n", said)
            status, said, _ = self.shrunk(file.name, 4096, log, "--bad", "stuck")
            self.assertEqual(status, 1, said)
            self.assertIn("the log's run ends otherwise:\n", said)

    def test_engine_in_doubt(self):
        """If the walk doesn't bear out what comes after the log, what the log itself has is known all the same."""
        def differs(judge, told):
            raise Differs("planted")

        with mock.patch.object(Judge, "judged", differs):
            status, said, _ = self.of_steps(self.WAITS, 100, "--bad", "hang")
            self.assertEqual(status, 1)
            self.assertIn("whether thread 0 hangs isn't known: the walk says otherwise than the engine\n", said)
            status, said, _ = self.of_steps(self.WAITS, 100, "--bad", "word 400 = 0")
            self.assertEqual(status, 3, said)
            self.assertIn("nothing is written: planted", said)

    def test_no_commit(self):
        """Of an empty log there is only what comes after it."""
        code = laid(addi(10, 0, 7), *call(0))
        with written(code) as file:
            empty = write_log(packed("log 1 order-size 4096 0\n"))
            status, said, ended = self.shrunk(file.name, 4096, empty, "--bad", "exit 0 = 7")
            self.assertEqual((status, ended.threads), (0, [("ended", 7)]), said)
            self.assertEqual(self.shrunk(file.name, 4096, empty)[0], 1)

    def test_ends_after_the_log(self):
        code = laid(addi(5, 0, 100), addi(5, 5, -1), *[word ^ 0x1000 for word in (beq(5, 0, -4),)], addi(10, 0, 7), *call(0))
        status, said, ended = self.of_steps(code, 50, "--bad", "exit 0 = 7")
        self.assertEqual((status, ended.threads), (0, [("ended", 7)]), said)
        status, said, _ = self.of_steps(code, 50, "--bad", "hang")
        self.assertEqual(status, 1)
        self.assertIn("thread 0 doesn't hang: the log ends too early, and from there the run goes on to its end\n"
                      "the log's run ends otherwise:\nthread 0 ended with 7\n", said)


class Idle(Shrunk):
    """Without the steps that a thread does in vain a run comes to the same state, with far fewer steps."""

    def test_same_state(self):
        for example in FAILING:
            image, memory = sphere_of(example.folder)
            log, account = recorded(example.folder, example.seeds[0])
            job = self.job(image, memory)
            recording = Recording(job, log)
            with job.engine(recording.answers, recording.dmas, condition=[]) as engine:
                useful = engine.without_idle_steps(recording.turns)
                told = engine.told(useful, EXACTLY, TO_LAST_TURN)[1]
            before, after = Ended(account), Ended(told.account)
            self.assertEqual((after.rows, after.console), (before.rows, before.console), example.folder.name)
            self.assertEqual(own_end(after), own_end(before), example.folder.name)
            self.assertEqual([line for line in after.state if " live " not in line],
                             [line for line in before.state if " live " not in line], example.folder.name)
            steps = [sum(turn.steps for turn in turns if turn.actor < 63) for turns in (recording.turns, useful)]
            self.assertLessEqual(steps[1], steps[0])

    def test_rounds_that_change_something(self):
        """A thread that comes back to where it was isn't idle if it has stored or printed meanwhile."""
        stores = laid(addi(6, 0, SHARED), addi(7, 0, 1), atomic(ADD, 0, 6, 7), addi(0, 0, 0), beq(0, 0, -8))
        prints = laid(addi(10, 0, 8), addi(11, 0, 0), addi(12, 0, 1), *call(2), addi(10, 0, 0), beq(0, 0, -24))
        waits = laid(lw(7, SHARED), beq(7, 0, -4))
        for code, idle in (stores, 0), (prints, 0), (waits, 59):
            with written(code) as file:
                job = self.job(file.name, 4096)
                with job.engine(condition=[]) as engine:
                    told = engine.told([Turn(0, 60, 0, "forced")], EXACTLY, TO_LAST_TURN)[1]
                    recording = Recording(job, write_log(told.log))
                    useful = engine.without_idle_steps(recording.turns)
                    again = Ended(engine.told(useful, EXACTLY, TO_LAST_TURN)[1].account)
                self.assertEqual((again.rows, again.console), (recording.at_log_end.rows, recording.at_log_end.console))
                self.assertLessEqual(sum(turn.steps for turn in useful), 60 - idle)

    def test_reservation_is_of_one_chunk(self):
        """Thread 0 reserves, and does so again as soon as thread 1 has stored. That isn't idle, although it leads to a state in which
        the thread was before, since that was in another chunk."""
        code = laid(addi(10, 0, 256), addi(11, 0, 0), addi(12, 0, 0), *call(1), addi(6, 0, SHARED), addi(13, 0, SHARED + 4),
                    addi(7, 0, 5), addi(9, 0, 1), atomic(LR, 7, 6, 0), lw(8, SHARED + 8), beq(8, 0, 20), atomic(SC, 9, 6, 6),
                    addi(10, 9, 0), *call(0), atomic(SC, 9, 13, 6), beq(0, 0, -32))
        code |= {256 + at: word for at, word in laid(addi(7, 0, 1), sw(7, SHARED + 8), addi(10, 0, 0), *call(0)).items()}
        self.ends_so(code, ((0, 4), (0, 0), (0, 9), (1, 4), (1, 0), (0, 6), (0, 0)), "", [("ended", 0)] * 2)

    def test_handler_is_not_idle(self):
        """An interrupt whose handler changes nothing leads back to where the thread was; but it has come."""
        code = laid(addi(10, 0, 256), *call(6), addi(17, 0, 7), addi(5, 5, 1), addi(5, 5, 1), addi(5, 5, 1), addi(10, 5, 0), *call(0))
        code |= {256 + at: word for at, word in laid(*call(7)).items()}
        self.ends_so(code, ((0, 2), (0, 0), (0, 3), (0, 1), (0, 0), (0, 3), (0, 0)), "i 0 3 0000002A\n", [("ended", 3)])

    def ends_so(self, code, sizes, interrupts, ends):
        """A log of these commits ends so, also without its idle steps."""
        text = "log 1 order-size 4096 %d\n" % len(sizes) + "".join("p %d %d %d\n" % (j, *size) for j, size in enumerate(sizes))
        with written(code) as file:
            job = self.job(file.name, 4096)
            recording = Recording(job, write_log(packed(text + interrupts)))
            self.assertEqual(recording.at_log_end.threads, ends)
            with job.engine(condition=[]) as engine:
                useful = engine.without_idle_steps(recording.turns)
                self.assertEqual(Ended(engine.told(useful, EXACTLY, TO_LAST_TURN)[1].account).threads, ends)

    @staticmethod
    def job(image, memory):
        return searching.Job(Namespace(image=image, memory=str(memory), log="", bad=[], out="/dev/null", seed=0, input=None, tick=64,
                                       turn=10000, steps=1000000, log_version=1))


class Stopped(OfRing):
    def test_ctrl_c(self):
        """What it came down to is said, and nothing is written."""
        calls, guided = iter(range(100)), Engine.guided

        def stopped(*given):
            if next(calls) == 90:
                raise KeyboardInterrupt
            return guided(*given)

        said = []
        with mock.patch.object(Engine, "guided", stopped), mock.patch("builtins.print", lambda *words, **_: said.extend(words)):
            with self.assertRaises(KeyboardInterrupt):
                self.ring()
        self.assertFalse(self.small.exists())
        self.assertRegex(said[-1], r"^in 91 runs it came down to \d+ switches, \d+ forced; nothing is written$")


if __name__ == "__main__":
    unittest.main()
