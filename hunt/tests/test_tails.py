"""Of a tail the commands say what they say of the same commits of the whole recording; and its play has the account that the
proved program's `tail` puts."""

import re
import shutil
import subprocess
import tempfile
import unittest
from pathlib import Path

import support
from campaign import plans
from lib.account import program
from lib.logs import MODE_NAMES, Malformed
from lib.tails import read_tail
from lib.trace import NotRead, open_trace
from test_ask import said
from test_guide import command
from view.findings import findings
from view.page import page
from view.picture import Picture
from view.text import rows

EXAMPLES = support.TOP / "examples"
# Calls, DMA and devices, interrupts, pipes, several threads, two chunks at a time.
FOLDERS = (EXAMPLES / "calls", EXAMPLES / "input", EXAMPLES / "interrupt", EXAMPLES / "pipe", EXAMPLES / "talk", EXAMPLES / "two-chunks",
           EXAMPLES / "race", support.TOP / "hunt/examples/interrupt", support.TOP / "hunt/examples/aba")
EPOCHS = (1, 1), (3, 2), (7, 3)


def recorded(scratch, folder, mode, epoch=None, keep=None):
    """Records the first sphere of a folder's plan: its image, memory and log."""
    for file in folder.iterdir():
        if file.is_file():
            shutil.copy(file, scratch)
    values = plans.read_plan(folder / "plan.toml").values
    values["sphere"][0] = {"image": values["sphere"][0]["image"], "memory": values["sphere"][0]["memory"], "role": "record",
                           "mode": mode, "version": 2, "log": "part.log"}
    if epoch:
        values["sphere"][0].update(epoch=epoch, keep=keep)
    (scratch / "try.toml").write_text(plans.toml(values))
    subprocess.run([*program(), "run", "try.toml"], cwd=scratch, check=True, stdout=subprocess.DEVNULL)
    return scratch / values["sphere"][0]["image"], values["sphere"][0]["memory"], scratch / "part.log"


def did(trace, number):
    """What a commit did, by its number in accounts."""
    commit = trace.commits[number - trace.base]
    accesses = [access[1:] for access in trace.accesses_of(commit)]  # without the number of the step
    return (commit.told, commit.actor, commit.kind, commit.size, commit.raised, commit.threads, commit.request, accesses)


@unittest.skipUnless(support.can_walk(), support.NOT_BUILT)
class Tails(unittest.TestCase):
    def setUp(self):
        folder = tempfile.TemporaryDirectory()
        self.addCleanup(folder.cleanup)
        self.folder = Path(folder.name)

    def test_as_the_whole_run(self):
        lengths = set()
        for folder in FOLDERS:
            for mode in MODE_NAMES:
                whole = open_trace(*recorded(self.folder, folder, mode))
                for epochs in EPOCHS:
                    with self.subTest(folder=folder.name, mode=mode, epochs=epochs):
                        part = open_trace(*recorded(self.folder, folder, mode, *epochs))
                        self.assertEqual(part.end, whole.end)
                        for number in range(part.base, part.end[1]):
                            self.assertEqual(did(part, number), did(whole, number))
                        self.assertEqual(part.machine.memory, whole.machine.memory)
                        lengths.add((part.base > 0, len(part.commits) > 1))
        self.assertIn((True, True), lengths)

    def bank(self):
        """The image, memory and tail of examples/bank, whose account at 708 loses an update in commits 27 to 30 after 29,900."""
        for name in "bank.elf", "plan.toml":
            shutil.copy(EXAMPLES / "bank" / name, self.folder)
        subprocess.run([*program(), "run", "plan.toml"], cwd=self.folder, check=True, stdout=subprocess.DEVNULL)
        return self.folder / "bank.elf", 4096, self.folder / "bank.tail"

    def test_commands(self):
        trace, tell = open_trace(*self.bank()), command("trace").answer
        self.assertEqual(trace.base, 29888)
        lost = list(tell(trace, ["lost"]))
        self.assertEqual([line.split()[:4] for line in lost[1:]], [["commit", str(number), "thread", thread] for number, thread in
                                                                   ((29927, "2"), (29928, "1"), (29930, "2"))])
        first, second = list(tell(trace, ["switches"]))[:2]
        self.assertRegex(first, r"thread 2 is left with account\+0x4 = 00002D4E \(commit 29927, .*; thread 1 stores 00002D4F \(commit 29928, ")
        self.assertIn("it stores 00002D4D to account+0x4 (commit 29930, ", second)
        marked = [line for line in tell(trace, ["around", "29927-29928"]) if line.startswith("> ")]
        self.assertEqual([line.split()[2] for line in marked], ["29927:", "29928:"])
        self.assertIn(" before commit 29888, ", list(tell(trace, ["who", "account"]))[0])
        self.assertEqual([line.split()[1] for line in tell(trace, ["why", "account+4", "29927-29928"])][1], "29927")

    def test_picture(self):
        trace = open_trace(*self.bank())
        picture = Picture(trace, [], findings(trace))
        lines = list(rows(picture, 29927, 29930, 1000))
        self.assertEqual([line.split()[0] for line in lines[1:]], ["29927", "29928", "29929", "29930", "!"])
        self.assertIn("<29923", lines[2])
        self.assertIn("in commit 29927; thread 1 stores 00002D4F over 00002D4E in commit 29928;", lines[-1])
        self.assertIn('"base":29888', page(picture, "bank"))

    def test_a_longer_log(self):
        """A thread that is live at the end of a tail waits, as it does at the end of the whole log."""
        image, memory, _ = recorded(self.folder, support.TOP / "hunt/examples/sleep", "order-size")
        whole = open_trace(image, memory, self.folder / "part.log")
        recorded(self.folder, support.TOP / "hunt/examples/sleep", "order-size", 3, 2)
        part, tell = open_trace(image, memory, self.folder / "part.log"), command("trace").answer
        self.assertGreater(part.base, 0)
        told = [[re.sub(", (stored by|as it was) .*", "", line) for line in tell(trace, ["waits"])] for trace in (part, whole)]
        self.assertEqual(told[0], told[1])
        self.assertIn("    for awake, which is 00000000, as it was before commit %d" % part.base, tell(part, ["waits"]))

    def test_refused(self):
        image, memory, tail = self.bank()
        with self.assertRaisesRegex(NotRead, "MEMORY is 8192, and the tail's memory has 4096 bytes"):
            open_trace(image, 8192, tail)
        data = tail.read_bytes()
        tail.write_bytes(data[:-1])
        self.assertIn("refused log 0 1 %d" % (len(data) - 1), said("trace", image, memory, tail)[2])
        with self.assertRaises(Malformed):
            read_tail(data[:-1])

    def test_asked(self):
        status, _, error = said("ask", "watch", *self.bank(), "account")
        self.assertEqual(status, 2)
        self.assertIn("bank.tail is a tail", error)

    def test_another_image(self):
        _, memory, tail = self.bank()
        status, _, error = said("trace", EXAMPLES / "race/race.elf", memory, tail)
        self.assertEqual(status, 1)
        self.assertIn("the tail has other instructions than the image", error)


if __name__ == "__main__":
    unittest.main()
