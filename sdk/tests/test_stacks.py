"""Stacks that are too small: what delorean-cc warns of, that hunt/find and hunt/search notice each run over one, and that find asks again
with larger ones."""

from pathlib import Path
import os
import re
import shutil
import sys
import tempfile
import unittest

HERE = Path(__file__).resolve().parent
TOP = HERE.parent.parent
sys.path[:0] = [str(HERE.parent / "examples"), str(TOP / "hunt")]

from lib.image import read_image  # noqa: E402
from lib.layout import MARK, stacks_of  # noqa: E402
from lib.symbols import Names  # noqa: E402
from measuring import ours  # noqa: E402
from support import CC, call, called, image  # noqa: E402

HAS_PROGRAM = bool(os.environ.get("DELOREAN")) or (TOP / "out/delorean").is_file()
FRAMES, NEIGHBOUR = HERE / "stacks/frames.c", HERE / "stacks/neighbour.c"


def sizes(outer, inner, threads=2, *more):
    return ["-DOUTER=%d" % outer, "-DINNER=%d" % inner, "-DTHREADS=%d" % threads, *more]


class InScratch(unittest.TestCase):
    def setUp(self):
        folder = tempfile.TemporaryDirectory()
        self.addCleanup(folder.cleanup)
        self.at = Path(folder.name)


@unittest.skipUnless(HAS_PROGRAM, "stacks that are run over: the proved program isn't built")
class Found(InScratch):
    def cleared(self, source, stack, *words):
        """The line on the thread that runs over its stack. With stacks of so many bytes no order fails."""
        status, told = ours.find(source, self.at / "out", *words)
        self.assertEqual(status, 0, told)
        first, second = told["stacks"]
        self.assertEqual(second, "%s: stacks of %s bytes, since 2,048 were too few (--stack)" % (source, stack))
        self.assertTrue(told["covered"][0].startswith("no order fails, with however many switches: "), told)
        return first

    def test_two_frames_that_need_more_together(self):
        self.assertRegex(self.cleared(FRAMES, "4,096", *sizes(1024, 1024)),
                         r"frames.c: thread \d \(worker\) runs over its stack: format, frames.c:9, called from worker, frames.c:17; "
                         r"it has 2,016 bytes above its mark, and needs 2,\d\d\d there$")

    def test_a_frame_that_jumps_over_the_mark(self):
        self.assertRegex(self.cleared(FRAMES, "4,096", *sizes(1024, 2048)), r"format, frames.c:9, .* needs 3,\d\d\d there$")

    def test_a_frame_of_the_library(self):
        self.assertRegex(self.cleared(FRAMES, "4,096", *sizes(1900, 16)), r"its stack: \w+, called from format, frames.c:11, ")

    def test_main(self):
        told = self.cleared(FRAMES, "4,096", *sizes(4096, 4096, 0, "-DIN_MAIN"))
        self.assertRegex(told, r"thread 0 \(main\) runs over its stack: format, .* it has 8,160 bytes above its mark, and needs 8,\d\d\d there$")

    def test_another_threads_stack(self):
        self.assertRegex(self.cleared(NEIGHBOUR, "4,096"), r"\(reader\) runs over its stack: length_of, neighbour.c:7, called from reader, ")

    def test_a_larger_stack_that_was_given(self):
        status, told = ours.find(FRAMES, self.at / "out", *sizes(1024, 1024), "--stack", "4096")
        self.assertEqual((status, told.get("stacks")), (0, None), told)

    def test_no_stack_is_large_enough(self):
        """A bug that lets a function call itself for ever."""
        status, told = ours.find(HERE.parent / "examples/deepstack.c", self.at / "out")
        self.assertEqual(status, 1, told)
        self.assertIn("stacks of 65,536 bytes", told["stacks"][1])
        self.assertRegex(told["found"]["broken"][0], r"^thread 0 \(main\) runs over its stack: .*length, deepstack.c:41, many times; ")
        self.assertEqual(ours.named_in(told["found"], "deepstack.c:20"), "why")
        self.assertTrue(ours.is_replayed(self.at / "out"))

    def test_images(self):
        """Nothing is compiled, so it is said what to do."""
        memory = image(self.at, FRAMES, *sizes(1024, 1024)).memory
        said = call(TOP / "hunt/find", self.at / "a.elf")
        self.assertEqual(said.returncode, 5, said.stdout)
        self.assertIn("\nso nothing is known of other failures: compile it with --stack 4096, and ask again\n", said.stdout)
        log = self.at / "over.log"
        said = call(TOP / "hunt/search", self.at / "a.elf", memory, "--bad", "exit 0 = 9", "--out", log)
        self.assertEqual(said.returncode, 5, said.stdout)
        self.assertRegex(said.stdout, r"\nthe stack of thread \d is run over: .*, format, frames.c:9\)\n(.*\n)*so nothing is known of the condition: ")
        self.assertIn("is run over", called(TOP / "hunt/trace", self.at / "a.elf", memory, log))
        said = call(TOP / "hunt/search", self.at / "a.elf", memory, "--bad", "overrun", "--out", log, "--strategy", "pct")
        self.assertEqual(said.returncode, 0, said.stdout)


class Layout(InScratch):
    def test_stacks_are_where_the_library_has_them(self):
        """By the numbers that the linker's script hands to the library, which are other ones than those that hunt takes."""
        for words in (), ("--stack", 1024, "--heap", 5000, "--threads", 3):
            made = image(self.at, FRAMES, *sizes(64, 64), *words)
            read = read_image((self.at / "a.elf").read_bytes(), made.memory)
            names = Names(read)
            at, stacks = names.value("__numbers"), stacks_of(names)
            _, room, stack, of_first = (int.from_bytes(read.memory[at + 4 * j:at + 4 * j + 4], "little") for j in range(4))
            second_tp = stacks.first_tp + room
            self.assertEqual(names.value("__main_stack"), stacks.first_tp - 512)
            self.assertEqual(stacks.begin(stacks.first_tp), stacks.first_tp - 512 - of_first + MARK)
            self.assertEqual(stacks.begin(second_tp), second_tp - 512 - stack + MARK)
            self.assertEqual((stacks.size(second_tp), stacks.others), (stack - MARK, stack))

    @unittest.skipUnless(shutil.which("riscv64-unknown-elf-objdump"), "frames of the library: there is no objdump for RISC-V")
    def test_who_finds_a_lock_held_needs_no_larger_stack(self):
        """A search lets a thread take a lock only when it is free, so it doesn't see the calls of one that finds it held."""
        image(self.at, FRAMES, *sizes(64, 64))
        code = called("riscv64-unknown-elf-objdump", "-d", self.at / "a.elf")
        taken, held = (int(re.search(r"<%s>:\n.*sp,sp,-(\d+)" % name, code)[1]) for name in ("__delorean_took", "__delorean_wait"))
        self.assertLessEqual(held, taken)


class Warned(InScratch):
    def warned(self, inner, *words):
        return call(CC, "-c", FRAMES, *sizes(64, inner), *words, "-o", self.at / "a.o").stdout

    def test_frames_that_no_thread_has_room_for(self):
        for inner, words in (2048, ()), (1952, ()), (4000, ("--stack", 4096)):
            self.assertRegex(self.warned(inner, *words), r"In function 'format'(.*\n)+.*warning: the frame size of %d bytes is larger than" % inner)
        for inner, words in (1900, ()), (3900, ("--stack", 4096)):
            self.assertNotIn("warning", self.warned(inner, *words))


if __name__ == "__main__":
    unittest.main()
