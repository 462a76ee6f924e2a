"""The search does its runs as a tree. Whatever a run changes is taken back before the next one parts from the same stop; and runs that
can't part there, because too many are kept, do so later."""

import os
import unittest

from all_ends import met_ends
from lib.conditions import read_condition
from lib.engine import Options
from lib.image import read_image
from lib.symbols import Names
from locked_programs import locked_program, with_marks
from small_programs import LR, OWN, SC, SIZE, add, addi, atomic, beq, bne, elf, image_of, lw, random_program, reserving_step, slli, sw
from test_search import BUGS, CAN_BUILD, NO_COMPILER, command, searched
from test_search_keys import CONSOLE, PIPE, READ, WRITE, calls
from test_search_states import A, ANSWER, B, ENDS, FLAG, Q, REQUEST, SEEN, SPAWNS, SPAWNS_TWO, W, laid, sets

FEW = Options(steps=100000)


@unittest.skipUnless(CAN_BUILD, NO_COMPILER)
class Tree(unittest.TestCase):
    def programs(self):
        for seed in (1, 4, 9, 11, 19, 36):
            code, _, marks = locked_program(seed)
            yield read_image(with_marks(elf(code), marks), SIZE)
        for seed in (8, 27, 47, 59, 85, 121):
            yield image_of(random_program(seed, reserving_step, 2)[0])

    def test_few_kept(self):
        for place, image in enumerate(self.programs()):
            expected = met_ends(image, FEW)
            for kept in 0, 1, 2:
                self.assertEqual(met_ends(image, FEW, "keep %d" % kept), expected, (place, kept))

    def test_found(self):
        """After other runs that parted where it does; its log is walked."""
        for image, bad, *_ in (BUGS[0][0], *BUGS[0][2:]), (BUGS[2][0], *BUGS[2][2:]):
            status, said = command("search", image, 4096, "--bad", bad, "--out", os.devnull)
            self.assertEqual(status, 0, said)

    def test_reservation_is_kept(self):
        """If thread 0 is left between its LR and its SC, thread 1 takes longer than a chunk. After the SC thread 0 may be left too."""
        met = met_ends(laid(
            [*SPAWNS, addi(6, 0, OWN), atomic(LR, 7, 6, 0), lw(9, A), atomic(SC, 8, 6, 0), addi(8, 8, 2), sw(8, SEEN), addi(9, 9, 4),
             sw(9, B), *ENDS],
            [addi(9, 0, 2047), addi(9, 9, -1), bne(9, 0, -4), *sets(A, 1), lw(8, SEEN), lw(9, B), add(8, 8, 9), sw(8, ANSWER), *ENDS]))
        self.assertEqual(met[1][1, 4, 2, 2], 1)

    def test_request_is_kept(self):
        """Thread 0 may be left before each store for the DMA, and for thread 1 before the second one. The DMA comes in each run."""
        met = met_ends(laid([*sets(SEEN, 5), *calls(REQUEST, SEEN, 0), *SPAWNS, *sets(A, 1), *sets(B, 1), *ENDS],
                            [lw(7, A), lw(8, B), slli(7, 7, 1), add(7, 7, 8), sw(7, ANSWER), *ENDS]))[1]
        self.assertEqual({(seen, answer) for _, _, seen, answer in met}, {(0, answer) for answer in range(4)})

    def test_pipe_is_kept(self):
        """Thread 1 reads the first byte, wherever it comes."""
        met = met_ends(laid([addi(9, 0, 0x201), sw(9, OWN), *calls(WRITE, PIPE, OWN, 2), *SPAWNS, *sets(A, 1), *sets(B, 1), *ENDS],
                            [lw(9, A), *calls(READ, PIPE, OWN + 4, 1), lw(7, OWN + 4), sw(7, ANSWER), sw(9, B), *ENDS]))[1]
        self.assertEqual({end[3] for end in met}, {1})

    def test_console_is_kept(self):
        """Threads 1 and 2 each write a letter, in either order; and what a run has written isn't there in the next one."""
        def writes(letter, word):
            return [*sets(word, ord(letter)), *calls(WRITE, CONSOLE, word, 1), *ENDS]
        image = laid([*SPAWNS_TWO, *ENDS], writes("a", OWN), writes("b", OWN + 4))
        for text in "ab", "ba":
            self.assertIsNotNone(searched(image, read_condition(["console = %s" % text], Names(image))).told, text)

    def test_whoever_was_left_is_kept(self):
        """Thread 2 is left before it stores to B. Thread 0 comes, and then thread 1, which hasn't come yet. It has come, and was known to
        wait, in the run before, which parted earlier and came to a state that was met."""
        waits = [lw(5, W), beq(5, 0, -4), *ENDS]
        met = met_ends(laid([*SPAWNS_TWO, lw(7, Q), beq(7, 0, -4), lw(7, A), lw(8, B), slli(7, 7, 1), add(7, 7, 8), sw(7, SEEN),
                             *sets(FLAG, 1), *waits],
                            [lw(8, B), lw(9, FLAG), slli(8, 8, 1), add(8, 8, 9), sw(8, ANSWER), *waits],
                            [*sets(Q, 1), *sets(A, 1), *sets(A, 2), *sets(A, 3), *sets(B, 1), *sets(W, 1), *ENDS]))[1]
        self.assertEqual(met[3, 1, 6, 1, 0], 1)



if __name__ == "__main__":
    unittest.main()
