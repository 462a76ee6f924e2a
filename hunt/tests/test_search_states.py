"""Programs of which an end is lost if the search forgets one thing that a switch changes, that is part of a state, or by which it
knows where others may come. What they can come to was found by hand."""

import unittest

from all_ends import met_ends
from lib.conditions import read_condition
from lib.engine import Options
from lib.symbols import Names
from small_programs import (CODE_OF_THREAD, EXIT, LR, OWN, RESULTS, SC, SHARED, SPAWN, add, addi, atomic, beq, bne, call, image_of,
                            lw, sees, sets, slli, sw)
from test_search import CAN_BUILD, NO_COMPILER, searched

A, B, FLAG, Q, W = SHARED, SHARED + 4, SHARED + 8, SHARED + 12, SHARED + 20
SEEN, ANSWER = RESULTS, RESULTS + 4
BUFFER = 0x700
HANDLER, IRET, REQUEST = 6, 7, 8
SPAWNS = [addi(10, 0, CODE_OF_THREAD), addi(11, 0, 0), addi(12, 0, 0), *call(SPAWN)]
SPAWNS_TWO = [*SPAWNS, addi(10, 0, 2 * CODE_OF_THREAD), *call(SPAWN)]
ENDS = [addi(10, 0, 0), *call(EXIT)]
DELAY = [addi(9, 0, 1000), addi(9, 9, -1), bne(9, 0, -4)]


def laid(*threads):
    """The image of threads' code; the first one begins."""
    return image_of({CODE_OF_THREAD * k + 4 * place: word for k, words in enumerate(threads) for place, word in enumerate(words)})


@unittest.skipUnless(CAN_BUILD, NO_COMPILER)
class States(unittest.TestCase):
    def outcomes(self, *threads, **options):
        how, met, _ = met_ends(laid(*threads), **options)
        self.assertEqual(how, "all")
        return met

    def test_load_reserved_of_an_own_word(self):
        """Another thread comes right before the LR; to leave after it would lose the reservation."""
        met = self.outcomes(
            [*SPAWNS, *sets(A, 1), addi(6, 0, OWN), atomic(LR, 9, 6, 0), lw(5, B), atomic(SC, 8, 6, 7), slli(5, 5, 2), add(5, 5, 8),
             sw(5, SEEN), *ENDS],
            [*sees(A), *sets(B, 1), sw(5, ANSWER), *ENDS])
        self.assertEqual(len(met), 8)
        self.assertEqual(met[1, 1, 4, 1], 1)  # the SC succeeds, and both have seen what the other one stored

    def test_reservation_and_the_longest_chunk(self):
        """From the LR to the SC are 4,096 instructions, which one chunk can have, or one more, which none has."""
        for nothing, forced in ([], {0: 0, 1: 1}), ([addi(0, 0, 0)], {1: 0}):
            met = self.outcomes([addi(6, 0, OWN), addi(9, 0, 2047), atomic(LR, 7, 6, 0), addi(9, 9, -1), bne(9, 0, -4), *nothing,
                                 atomic(SC, 8, 6, 7), sw(8, SEEN), *ENDS])
            self.assertEqual({seen: cost for (_, _, seen), cost in met.items()}, forced)

    def test_waiting_loop_that_looks_at_an_own_word(self):
        """The loop never ends if the thread's own word is 0, which isn't to be taken for a loop with a 1 there."""
        met = self.outcomes(
            [*SPAWNS, *sets(A, 1), lw(5, FLAG), sw(5, SEEN), *sets(B, 2), *ENDS],
            [lw(7, A), sw(7, OWN), addi(9, 0, 1), sw(9, FLAG), addi(9, 0, 0), addi(7, 0, 0), lw(5, B), lw(7, OWN), bne(7, 0, 12),
             addi(5, 0, 0), beq(0, 0, -16), sw(5, ANSWER), *ENDS])
        self.assertEqual(met[1, 2, 1, 2], 2)

    def test_changed_code_that_was_done_before(self):
        """A word of code is done twice, and is changed before, between, or after."""
        met = self.outcomes(
            [*SPAWNS, addi(9, 0, 2), addi(5, 5, 1), addi(9, 9, -1), bne(9, 0, -8), sw(5, SEEN), *ENDS],
            [lw(7, CODE_OF_THREAD + 20), sw(7, 24), *ENDS, addi(5, 5, 16)])
        self.assertEqual(met, {(0, 0, 2, 0): 0, (0, 0, 17, 0): 1, (0, 0, 32, 0): 1})

    def test_waiting_loop_of_two_places(self):
        """A thread that is known to wait comes, sees a 5, and is left before it looks at the other word. To see Q twice as 1 wants
        three forced switches, and this two more."""
        met = self.outcomes(
            [*SPAWNS_TWO, lw(7, FLAG), beq(7, 0, -4), lw(9, Q), slli(9, 9, 1), lw(7, Q + 4),
             add(9, 9, 7), sw(9, SEEN), addi(9, 0, 0), addi(7, 0, 0), *sets(B, 5), *sets(B, 6), *sets(A, 1), *ENDS],
            [addi(9, 0, 1), sw(9, FLAG), addi(9, 0, 0), lw(5, B), lw(7, A), bne(7, 0, 12), addi(5, 0, 0), beq(0, 0, -16),
             sw(5, ANSWER), *ENDS],
            [*sets(Q, 1), *sets(Q, 0), *sets(Q + 4, 1), *sets(Q + 4, 0), *ENDS])
        self.assertEqual(met[1, 6, 3, 5, 0], 5)

    def test_waiting_for_a_request(self):
        """A second request is refused until the first one is done. That ends, and without a forced switch."""
        asks = [addi(10, 0, BUFFER), addi(11, 0, 4), *call(REQUEST)]
        how, met, hang = met_ends(laid([*asks, *asks, bne(10, 0, -16), *ENDS]))
        self.assertEqual((how, met, hang), ("all", {(0, 0, 0): 0}, False))

    def test_interrupt_between_any_instructions(self):
        """A handler sees the registers, so it matters to it between which instructions it comes."""
        met = self.outcomes([addi(10, 0, CODE_OF_THREAD), *call(HANDLER), addi(5, 5, 1), addi(5, 5, 1), addi(5, 5, 1), *ENDS],
                            [sw(5, SEEN), *call(IRET)], options=Options(raises=((0, 1),)))
        self.assertEqual({seen: forced for (_, _, seen), forced in met.items()}, {0: 0, 1: 1, 2: 1, 3: 1})

    def test_segments_are_part_of_a_state(self):
        """Thread 1 touches W only if it sees the flag, which is set for a moment; that leaves no trace, if W isn't set yet."""
        met = self.outcomes(
            [*SPAWNS_TWO, *ENDS],
            [lw(7, FLAG), beq(7, 0, 8), lw(7, W), lw(9, B), sw(7, ANSWER), *ENDS],
            [*DELAY, *sets(FLAG, 1), *sets(FLAG, 0), *sets(B, 1), *sets(W, 1), *ENDS])
        self.assertEqual(met, {(0, 1, 0, 0, 0): 0, (0, 1, 0, 1, 0): 2})

    def test_segments_after_a_fork(self):
        """Thread 1 stores to W only if its SC fails. Thread 0 sees that if it is left before its load, and the chunk ends before the
        SC. Only one run shows that W is met: thread 0 is left at its end, and the chunk ends then; and from the same SC the search
        has just tried that thread 0 comes, and ends."""
        image = laid([*SPAWNS, lw(8, W), sw(8, SEEN), *ENDS],
                     [*DELAY, addi(6, 0, OWN), atomic(LR, 7, 6, 0), atomic(SC, 8, 6, 0), beq(8, 0, 8), sw(8, W), *ENDS])
        for switches, how in (1, "bound"), (2, "found"):
            condition = read_condition(["word %X = 1" % SEEN], Names(image))
            self.assertEqual(searched(image, condition, switches).how, how)

    def test_words_of_a_waiting_loop_are_places(self):
        """Thread 1 is known to wait in its loop while A is 0, and isn't run. But it may have looked at A, and not yet at W. That is
        stored to only if FLAG was seen at both its values, which wants three forced switches."""
        met = self.outcomes(
            [*sets(A, 1), *SPAWNS_TWO, *ENDS],
            [addi(9, 0, 1), sw(9, FLAG), addi(9, 0, 2), sw(9, FLAG), lw(7, A), bne(7, 0, 16), lw(8, W), beq(8, 0, -12),
             addi(5, 0, 1), sw(5, ANSWER), *ENDS],
            [lw(7, FLAG), addi(7, 7, -1), lw(8, FLAG), addi(8, 8, -2), *DELAY, addi(6, 0, 1), sw(0, A), sw(6, A), bne(7, 0, 12),
             bne(8, 0, 8), sw(6, W), *ENDS])
        self.assertEqual(met, {(1, 0, 0, 0, 0): 0, (1, 0, 0, 1, 0): 5})

    def test_words_that_become_places_later(self):
        """The same, but W is found to be shared only after thread 1 was seen to wait, when its loop had one place."""
        met = self.outcomes(
            [*sets(A, 1), *SPAWNS_TWO, *ENDS],
            [*DELAY, addi(9, 0, 1), sw(9, FLAG), addi(9, 0, 2), sw(9, FLAG), lw(7, A), bne(7, 0, 16), lw(8, W), beq(8, 0, -12),
             addi(5, 0, 1), sw(5, ANSWER), *ENDS],
            [*DELAY, lw(7, FLAG), addi(7, 7, -1), lw(8, FLAG), addi(8, 8, -2), *DELAY, addi(6, 0, 1), sw(0, A), sw(6, A),
             bne(7, 0, 12), bne(8, 0, 8), sw(6, W), *ENDS])
        self.assertEqual(met, {(1, 0, 0, 0, 0): 0, (1, 0, 0, 1, 0): 5})


if __name__ == "__main__":
    unittest.main()
