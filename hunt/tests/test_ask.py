"""hunt/ask tells the proved program's answers about a word; trace ends with 1 if the log leaves the program; stacks."""

import subprocess
import unittest

import support
from lib.account import program
from lib.logs import ORDER_SIZE, Log
from lib.play import play
from lib.stacks import overruns, stack_lines
from lib.telling import answer_line, folded_rows
from lib.trace import Trace
from small_programs import SHARED, SPAWN, addi, call, image_of, sw
from test_guide import command

RACE = support.TOP / "examples/race"
SP = 2


def said(name, *words):
    ran = subprocess.run([support.TOP / "hunt" / name, *map(str, words)], capture_output=True, text=True)
    return ran.returncode, ran.stdout, ran.stderr


@unittest.skipUnless(support.can_walk(), support.NOT_BUILT)
class Ask(unittest.TestCase):
    files = RACE / "race.elf", 4096, RACE / "expected/race.log"

    def test_words(self):
        """The counter is at 600; thread 2 stored D there in commit 19, and thread 1 was the first to change it, as walk says."""
        wanted = (0, "counter (00000600)\n  commit 19  thread 2  leaves 0000000D\n", "")
        for word in ("counter", "600", "0x600", "stacks+0x200"):
            self.assertEqual(said("ask", "who", *self.files, word, 22), wanted, word)
        self.assertEqual(said("ask", "when", *self.files, "counter", "0x0")[1].count("commit 10  thread 1"), 1)
        self.assertEqual(said("ask", "who", *self.files, "counter", 0), (0, "counter (00000600)\n  none\n", ""))

    def test_all_commits(self):
        status, text, _ = said("ask", "watch", *self.files, "counter")
        lines = text.splitlines()[1:]
        plain = subprocess.run([*program(), "watch", *map(str, self.files), "1536"], capture_output=True, text=True).stdout
        self.assertEqual((status, len(lines)), (0, len(plain.splitlines())))

    def test_refusals(self):
        for words in ((), ("watch",), ("walk", *self.files, "counter"), ("watch", *self.files, "nothing"), ("who", *self.files, "counter"),
                      ("who", *self.files, "counter", "x"), ("watch", "absent.elf", 4096, "a.log", "600"),
                      ("watch", *self.files[:1], 4097, "a.log", "600")):
            status, text, error = said("ask", *words)
            self.assertEqual((status, text), (2, ""), words)
            self.assertTrue(error)

    def test_a_log_of_another_image(self):
        words = RACE / "mended.elf", 4096, RACE / "expected/race.log"
        self.assertEqual(said("ask", "watch", *words, "counter")[0], 1)
        status, text, error = said("trace", *words)
        self.assertEqual(status, 1)
        self.assertIn("the log leaves the program", error)
        self.assertIn("no difference from the account", text)


class Words(unittest.TestCase):
    def test_answers(self):
        for line, wanted in (("w 19 2 0000000D", "commit 19  thread 2  leaves 0000000D"), ("w 4 63 00000001", "commit 4  dma  leaves 00000001"),
                             ("none", "none"), ("start", "as it was at first")):
            self.assertEqual(answer_line(line), wanted)

    def test_equal_loads_are_one_row(self):
        trace = support.traced("wake-up, plan.toml")
        rows = folded_rows(trace, trace.of_word(trace.names.word("awake")))
        self.assertEqual([row[-1] for row in rows], ["", "", "", "", "", "", "40 times, up to commit 416"])

    def test_ranges(self):
        trace = support.traced("race, plan.toml")
        marked = [line for line in command("trace").answer(trace, ["around", "13-15"]) if line.startswith("> ")]
        self.assertEqual([line.split()[2] for line in marked], ["13:", "14:", "15:"])


def deep(depth):
    """Thread 1 begins with sp at SHARED + 0x40, thread 2 with SHARED + 0x80, and goes down by `depth`."""
    first = [addi(10, 0, 0x100), addi(11, 0, SHARED + 0x40), addi(12, 0, 0), *call(SPAWN)]
    first += [addi(10, 0, 0x140), addi(11, 0, SHARED + 0x80), addi(12, 0, 0), *call(SPAWN)]
    code = {4 * j: word for j, word in enumerate(first)}
    code.update({0x100: 0x13, 0x140: addi(SP, SP, -depth), 0x144: sw(0, SHARED + 0x60), 0x148: addi(SP, SP, depth)})
    image = image_of(code)
    commits = [(0, 4), (0, 0), (0, 4), (0, 0), (1, 1), (2, 3)]
    order, sizes = [k for k, _ in commits], [size for _, size in commits]
    log = Log(1, 15, ORDER_SIZE, 4096, len(order), order, sizes, {}, [], [])
    return Trace(image, log, play(image, log))


class Stacks(unittest.TestCase):
    def test_a_stack_that_is_run_over(self):
        (over,) = overruns(deep(0x44))
        self.assertEqual((over.thread, over.begin, over.whose, over.lowest), (2, SHARED + 0x40, 1, SHARED + 0x3C))
        self.assertIn("the stack of thread 2 is run over", next(stack_lines(deep(0x44))))

    def test_as_deep_as_may_be(self):
        self.assertEqual(overruns(deep(0x40)), [])

    def test_the_examples(self):
        for recording in support.recorded():
            image, log, played = support.played(recording)
            self.assertEqual(overruns(Trace(image, log, played)), [], recording.name)


if __name__ == "__main__":
    unittest.main()
