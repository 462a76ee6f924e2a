"""A search notices each run over a stack, at the instruction that takes sp below it, in whatever order that happens. The images are made by
hand, and what is expected of them too; what is found is played by hunt's own machine."""

import unittest

import support  # noqa: F401 (finds lib)
from lib.account import account_lines
from lib.conditions import ANY, Atom, Ended
from lib.engine import Engine, Options
from lib.layout import SP, TP, Stacks
from lib.play import play
from small_programs import EXIT, SHARED, SPAWN, addi, beq, bne, call, image_of, lw, sw
from test_search import CAN_BUILD, NO_COMPILER

FIRST_TP, TP_OF_OTHER, SP_OF_FIRST, SP_OF_OTHER = 0x700, 0x7C0, 0x680, 0x7A0
FIRST_BEGINS, OTHER_BEGINS = 0x600, 0x780
STACKS = Stacks(FIRST_TP, FIRST_TP - FIRST_BEGINS, TP_OF_OTHER - OTHER_BEGINS, 0)
OVERRUN = Atom("overrun", 0, ANY, 0, 0, STACKS.packed())
ENTRY, WORD, FALSE_WORD = 0x100, 0x500, 0x504


def program(first=(), if_early=()):
    """The first thread does these, starts another one, and stores. The other one does its own if it comes before the store."""
    begin = [addi(TP, 0, FIRST_TP), addi(SP, 0, SP_OF_FIRST), *first, addi(10, 0, ENTRY), addi(11, 0, SP_OF_OTHER), addi(12, 0, TP_OF_OTHER),
             *call(SPAWN), addi(7, 0, 1), sw(7, SHARED), *call(EXIT)]
    other = [addi(TP, 10, 0), lw(7, SHARED), beq(7, 0, 4 + 4 * len(call(EXIT))), *call(EXIT), *if_early, *call(EXIT)]
    code = {4 * j: word for j, word in enumerate(begin)} | {ENTRY + 4 * j: word for j, word in enumerate(other)}
    return image_of(code | {WORD: OTHER_BEGINS, FALSE_WORD: OTHER_BEGINS - 4})


def searched(image, strategy=None):
    with Engine(image, [[OVERRUN]], Options(steps=100000)) as engine:
        return engine.drawn(strategy, 3, 0, 200, 60) if strategy else engine.search(4, 10**6, 1 << 20, 60)


@unittest.skipUnless(CAN_BUILD, NO_COMPILER)
class Search(unittest.TestCase):
    def sp_at_end(self, image, thread, bound=0, strategy=None):
        """The thread's sp where the run that was found is at its end."""
        result = searched(image, strategy)
        self.assertEqual(result.how, "found")
        if not strategy:
            self.assertEqual(result.bound, bound)
        account = ("\n".join(account_lines(play(image, result.told.log))[0]) + "\n").encode()
        self.assertEqual(result.told.account, account)
        ended = Ended(account)
        self.assertTrue(ended.meets([[OVERRUN]], False))
        return ended.registers[thread][SP]

    def assert_none(self, image):
        result = searched(image)
        self.assertEqual((result.how, result.told, result.limited), ("all", None, 0))

    def test_other_thread(self):
        room = SP_OF_OTHER - OTHER_BEGINS
        self.assertEqual(self.sp_at_end(program(if_early=[addi(SP, SP, -room - 16)]), 1, bound=1), OTHER_BEGINS - 16)
        self.assert_none(program(if_early=[addi(SP, SP, -room)]))

    def test_first_thread(self):
        room = SP_OF_FIRST - FIRST_BEGINS
        self.assertEqual(self.sp_at_end(program(first=[addi(SP, SP, -room - 16)]), 0), FIRST_BEGINS - 16)
        self.assert_none(program(first=[addi(SP, SP, -room), addi(SP, SP, room)]))

    def test_down_and_up_again(self):
        """So nothing of it is left at the next place."""
        self.assertEqual(self.sp_at_end(program(if_early=[addi(SP, SP, -48), addi(SP, SP, 48)]), 1, bound=1), SP_OF_OTHER - 48)

    def test_down_and_up_again_in_a_loop(self):
        """The second round takes sp below the stack, by instructions that have been done before."""
        add = 8 << 20 | SP << 15 | SP << 7 | 0x33
        sub = 0x20 << 25 | add
        rounds = [addi(8, 0, -16), addi(9, 0, -80), add, sub, addi(8, 8, -32), bne(8, 9, -12)]
        self.assertEqual(self.sp_at_end(program(if_early=rounds), 1, bound=1), SP_OF_OTHER - 48)

    def test_sp_is_loaded(self):
        self.assertEqual(self.sp_at_end(program(if_early=[lw(SP, FALSE_WORD)]), 1, bound=1), OTHER_BEGINS - 4)
        self.assert_none(program(if_early=[lw(SP, WORD)]))

    def test_sp_goes_round(self):
        self.assertEqual(self.sp_at_end(program(if_early=[addi(SP, SP, -2048)]), 1, bound=1), SP_OF_OTHER - 2048 + (1 << 32))

    def test_drawn(self):
        for strategy in "pct", "random":
            self.assertEqual(self.sp_at_end(program(if_early=[addi(SP, SP, -48)]), 1, strategy=strategy), SP_OF_OTHER - 48)
            self.assertIsNone(searched(program(if_early=[addi(SP, SP, -32)]), strategy).told)


if __name__ == "__main__":
    unittest.main()
