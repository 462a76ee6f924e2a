"""The search with few places against the search with all of them: whole sets of ends, each with its fewest forced switches; and
locks that are marked."""

import tempfile
import unittest
from pathlib import Path

import support  # noqa: F401 (finds lib)
from all_ends import met_ends
from lib.engine import Options, acquires
from lib.image import read_image
from locked_programs import MARK, given_lock, locked_program, taken, with_marks
from small_programs import (CODE_OF_THREAD, EXIT, RESULTS, SHARED, SIZE, SPAWN, addi, call, elf, explored, lw, sees, sets, slli, sw)
from test_search import CAN_BUILD, NO_COMPILER, command

A, B, WORD = SHARED, SHARED + 4, SHARED + 0x20
FIRST, SECOND = SHARED + 0x10, SHARED + 0x14  # locks
SEEN = RESULTS + 4
SPAWNS = [addi(10, 0, CODE_OF_THREAD), addi(11, 0, 0), addi(12, 0, 0), *call(SPAWN)]
ENDS = [addi(10, 0, 0), *call(EXIT)]
FEW, ALL = Options(steps=100000), Options(steps=100000, all_places=True)


def marked_file(*threads):
    """An ELF file of threads' code, with marks."""
    code, marks = {}, []
    for thread, words in enumerate(threads):
        at = CODE_OF_THREAD * thread
        for word in words:
            if word == MARK:
                marks.append(at)
            else:
                code[at] = word
                at += 4
    return with_marks(elf(code), marks)


@unittest.skipUnless(CAN_BUILD, NO_COMPILER)
class Locked(unittest.TestCase):
    def test_same_ends(self):
        hangs = 0
        for seed in range(40):
            code, _, marks = locked_program(seed)
            expected = met_ends(read_image(elf(code), SIZE), ALL)
            self.assertEqual(expected[0], "all", seed)
            self.assertEqual(met_ends(read_image(elf(code), SIZE), FEW), expected, seed)
            self.assertEqual(met_ends(read_image(with_marks(elf(code), marks), SIZE), FEW), expected, seed)
            hangs += expected[2]
        self.assertTrue(0 < hangs < 40)

    def test_every_order(self):
        for seed in (1, 9, 11, 19, 36, 41):
            code, threads, marks = locked_program(seed, 2)
            found, hang = explored(code, threads)
            how, met, met_hang = met_ends(read_image(with_marks(elf(code), marks), SIZE), FEW)
            self.assertEqual((how, set(met), met_hang), ("all", set(found), hang), seed)
            self.assertTrue(all(met[outcome] <= cost for outcome, cost in found.items()), seed)

    def test_release_and_the_bound(self):
        """Whoever is blocked is left for nothing, so one forced switch inside the region is enough. After it two would be wanted."""
        takes, gives = taken(FIRST, True), given_lock(FIRST)
        file = marked_file(
            [*SPAWNS, *sets(A, 1), *takes, lw(7, WORD), slli(7, 7, 1), addi(7, 7, 1), sw(7, WORD), *gives, *sets(B, 1), *ENDS],
            [*sees(A), *sees(B), *takes, lw(7, WORD), addi(7, 7, 2), sw(7, WORD), *gives, *sees(B), sw(5, SEEN), *ENDS])
        for options in FEW, ALL:
            self.assertEqual(met_ends(read_image(file, SIZE), options)[1][1, 1, 0, 0b10001], 1)

    def test_deadlock(self):
        """Threads that are blocked are shown to wait in their loops."""
        gives = [*given_lock(FIRST), *given_lock(SECOND)]
        file = marked_file([*SPAWNS, *taken(FIRST, True), *taken(SECOND, True), *gives, *ENDS],
                           [*taken(SECOND, True), *taken(FIRST, True), *gives, *ENDS])
        self.assertEqual(len(acquires(read_image(file, SIZE))), 4)
        with tempfile.TemporaryDirectory() as folder:
            image, log = Path(folder) / "a.elf", Path(folder) / "a.log"
            image.write_bytes(file)
            status, said = command("search", image, SIZE, "--bad", "hang", "--out", log)
        self.assertEqual(status, 0, said)
        self.assertIn(", 1 forced; walked", said)
        self.assertIn("no thread goes on, in whatever order", said)

    def test_damaged_sections(self):
        file = marked_file(taken(FIRST, True))
        self.assertEqual(acquires(read_image(file, SIZE)), [8])
        for cut in range(1, 120, 7):
            self.assertIn(acquires(read_image(file[:-cut], SIZE)), ([], [8]))


if __name__ == "__main__":
    unittest.main()
