"""What threads wait for: in an example, walked by the proved program, and in small programs made by hand."""

import subprocess
import tempfile
import unittest
from pathlib import Path

import support
from lib.frames import Frames
from lib.hangs import NotShown, circle, hang_lines, waits, waits_for
from lib.logs import ORDER_SIZE, Log, write_log
from lib.loops import loop_of
from lib.machine import Machine
from lib.trace import open_trace
from small_programs import ADD, EXIT, SHARED, SIZE, SPAWN, SWAP, addi, atomic, beq, bne, call, elf, image_of, lw, sw
from test_guide import HAS_LINES, NO_LINES

YIELD, ENDED, CLOCK = 10, 11, 5


def alone(words):
    """The loop of thread 0 that does these words of code, or None."""
    return loop_of(Machine(image_of({4 * j: word for j, word in enumerate(words)})), 0, 4096)


class Loops(unittest.TestCase):
    def test_a_loop_that_waits(self):
        loop = alone([addi(5, 0, 1), lw(7, SHARED), beq(7, 0, -4)])
        self.assertEqual(([c for c in loop.before + loop.commits][0], loop.commits), ((3, None), [(2, None)]))
        self.assertEqual({a.addr for a in loop.accesses}, {SHARED})

    def test_a_lock_that_is_held(self):
        """It swaps 1 for 1: nothing changes."""
        loop = alone([addi(6, 0, SHARED), addi(7, 0, 1), sw(7, SHARED), atomic(SWAP, 8, 6, 7), bne(8, 0, -4)])
        self.assertEqual(len(loop.commits), 1)

    def test_calls(self):
        loop = alone([addi(10, 0, 0), *call(ENDED), beq(10, 0, -12)])
        self.assertEqual([served.name for served in loop.calls], ["ended"])
        self.assertEqual([size for size, _ in loop.commits].count(0), 1)

    def test_what_goes_on(self):
        for words in ([addi(5, 5, 1), beq(0, 0, -4)],                       # counts
                      [addi(10, 0, 0), *call(EXIT)],                        # ends
                      [0],                                                  # faults
                      [*call(CLOCK), beq(0, 0, -8)],                        # asks what is answered from outside
                      [addi(6, 0, SHARED), addi(7, 0, 1), atomic(ADD, 0, 6, 7), beq(0, 0, -4)]):  # changes a word
            self.assertIsNone(alone(words))

    def test_the_machine_is_as_it_was(self):
        machine = Machine(image_of({0: lw(7, SHARED), 4: sw(7, SHARED + 4), 8: beq(7, 0, -8)}))
        before = machine.save()
        loop_of(machine, 0, 4096)
        self.assertEqual((machine.save(), len(machine.pcs), machine.accesses), (before, 0, []))


TAKE = [addi(7, 0, 1), atomic(SWAP, 8, 6, 7), bne(8, 0, -4)]


def two_locks():
    """Thread 0 takes lock A and then B, thread 1 B and then A."""
    first = [addi(10, 0, 0x100), *call(SPAWN), addi(6, 0, SHARED), *TAKE, addi(6, 0, SHARED + 4), *TAKE]
    second = [addi(6, 0, SHARED + 4), *TAKE, addi(6, 0, SHARED), *TAKE]
    code = {4 * j: word for j, word in enumerate(first)}
    code.update({0x100 + 4 * j: word for j, word in enumerate(second)})
    commits = [(0, 2), (0, 0), (0, 4), (1, 4), (0, 4), (1, 4)]
    return code, commits


def walked(test, code, commits):
    """The Trace of these commits, as (thread, size), walked by the proved program."""
    folder = tempfile.TemporaryDirectory()
    test.addCleanup(folder.cleanup)
    image, name = Path(folder.name) / "a.elf", Path(folder.name) / "a.log"
    image.write_bytes(elf(code))
    order, sizes = [k for k, _ in commits], [size for _, size in commits]
    name.write_bytes(write_log(Log(1, 15, ORDER_SIZE, 4096, len(order), order, sizes, {}, [], [])))
    return open_trace(image, SIZE, name)


@unittest.skipUnless(support.can_walk(), support.NOT_BUILT)
class Walked(unittest.TestCase):
    def test_a_circle(self):
        trace = walked(self, *two_locks())
        found = waits(trace)
        self.assertEqual([(wait.words, waits_for(trace, wait)) for wait in found], [([SHARED + 4], [1]), ([SHARED], [0])])
        self.assertEqual(sorted(circle(trace, found)), [0, 1])
        self.assertEqual(hang_lines(trace)[-1], "a circle: thread 1 waits for thread 0, thread 0 waits for thread 1")

    def test_one_that_goes_on(self):
        code, commits = two_locks()
        trace = walked(self, code, commits[:3])
        first, second = waits(trace)
        self.assertEqual((first.loop, second.loop), (None, None))  # each could take the lock that is free
        self.assertIn("thread 0 could go on", hang_lines(trace)[0])

    def test_the_example(self):
        recording = support.example("sleep, plan.toml")
        trace = open_trace(recording.image, recording.memory, recording.log)
        found, names = waits(trace), trace.names
        self.assertEqual([sorted(names.name(word) for word in wait.words) for wait in found], [[], ["awake"]])
        self.assertEqual([(wait.thread, wait.threads) for wait in found], [(0, [2]), (2, [])])
        self.assertEqual([waits_for(trace, wait) for wait in found], [[2], [1]])  # thread 1, which sets it, has ended
        self.assertIsNone(circle(trace, found))

    def test_without_a_walk(self):
        with self.assertRaises(NotShown):
            waits(support.traced("sleep, plan.toml"))

    def test_the_command(self):
        recording = support.example("sleep, plan.toml")
        words = [support.TOP / "hunt/trace", recording.image, str(recording.memory), recording.log, "waits"]
        ran = subprocess.run([*words, "--account", recording.account], capture_output=True, text=True)
        self.assertEqual((ran.returncode, ran.stdout), (1, ""))
        self.assertIn("--account", ran.stderr)


class Chains(unittest.TestCase):
    @unittest.skipUnless(HAS_LINES, NO_LINES)
    def test_calls(self):
        """In `join`, which main calls and which calls the kernel; the frames are those that gcc's output describes."""
        trace = support.traced("sleep, plan.toml")
        thread = trace.machine.threads[0]
        chain = trace.frames.chain(thread.pc, thread.x, lambda addr: trace.machine.words[addr >> 2])
        self.assertEqual([trace.names.function(pc) for pc in chain], ["join", "main"])

    def test_an_image_without_frames(self):
        frames = Frames(image_of({0: 0x13}))
        self.assertEqual(frames.chain(0, [0] * 33, lambda addr: 0), [0])


if __name__ == "__main__":
    unittest.main()
