"""A thread that polls keeps nobody from going on, so it isn't stuck; threads that go round for ever are, and those that all wait."""

import tempfile
import unittest
from pathlib import Path

import support  # noqa: F401: where lib is
from lib.conditions import Ended, read_condition
from lib.symbols import Names
from small_programs import SHARED, addi, beq, bne, call, elf, image_of, lw, sw
from test_search import CAN_BUILD, NO_COMPILER, command, laid

LOCK, FLAG, ROUND = SHARED, SHARED + 4, SHARED + 8
OTHER = 0x100
SPAWN, EXIT = 1, 0


def program(other):
    """Thread 0 starts `other`, waits until the lock's word is 0, sets the flag, and ends."""
    code = laid(addi(10, 0, OTHER), *call(SPAWN), lw(7, LOCK), bne(7, 0, -4), addi(7, 0, 1), sw(7, FLAG), addi(10, 0, 0), *call(EXIT))
    return {**code, **{OTHER + place: word for place, word in laid(*other).items()}}


def until_flag(*words):
    """Again and again, until the flag is set."""
    return [*words, lw(8, FLAG), beq(8, 0, -4 * (len(words) + 1)), addi(10, 0, 0), *call(EXIT)]


POLLS = program(until_flag(addi(7, 0, 1), sw(7, LOCK), sw(0, LOCK)))
KEEPS_IT = program([addi(7, 0, 1), sw(7, LOCK), *until_flag(sw(7, ROUND), sw(0, ROUND))])
ALL_WAIT = program([addi(7, 0, 1), sw(7, LOCK), *until_flag()])


@unittest.skipUnless(CAN_BUILD, NO_COMPILER)
class Stuck(unittest.TestCase):
    def said(self, code, *words):
        with tempfile.TemporaryDirectory() as folder:
            image = Path(folder) / "a.elf"
            image.write_bytes(elf(code))
            return command("search", image, 4096, "--out", Path(folder) / "a.log", *words)

    def test_who_polls_isnt(self):
        status, said = self.said(POLLS, "--bad", "hang")
        self.assertEqual(status, 0, said)
        self.assertIn("the state comes again", said)
        status, said = self.said(POLLS, "--bad", "stuck")
        self.assertEqual(status, 1, said)
        self.assertIn("no order ends so, with however many switches", said)

    def test_who_goes_round_is(self):
        for which in ("stuck", "stuck 0"):
            status, said = self.said(KEEPS_IT, "--bad", which)
            self.assertEqual(status, 0, said)
            self.assertIn("the state comes again", said)

    def test_who_waits_is(self):
        status, said = self.said(ALL_WAIT, "--bad", "stuck 1")
        self.assertEqual(status, 0, said)
        self.assertIn("no thread goes on, in whatever order", said)


class Conditions(unittest.TestCase):
    def test_accounts(self):
        names, account = Names(image_of(POLLS)), b"t 0 00000000 live 00000000 0\nend complete 0\n"
        self.assertTrue(Ended(account).meets(read_condition(["stuck"], names), True))
        self.assertFalse(Ended(account).meets(read_condition(["stuck 1"], names), True))
        self.assertFalse(Ended(account).meets(read_condition(["stuck"], names), False))


if __name__ == "__main__":
    unittest.main()
