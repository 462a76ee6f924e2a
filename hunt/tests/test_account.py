"""No account of an example differs from what the interpreter finds, and a fault in either is told with its place."""

import unittest
from unittest import mock

import support
from lib import isa
from lib.account import Differs, Walk, account_lines, compare
from lib.image import read_image
from lib.logs import ORDER_ONLY, read_log
from lib.play import play


class Accounts(unittest.TestCase):
    def test_stored_accounts(self):
        found = support.recorded()
        self.assertGreater(len(found), 20)
        for r in found:
            with self.subTest(r.name):
                compare(support.played(r)[2], r.account.read_bytes())

    @unittest.skipUnless(support.can_walk(), support.NOT_BUILT)
    def test_walks(self):
        for r in support.recorded():
            with self.subTest(r.name):
                compare(support.played(r)[2], Walk(r.image, r.memory, r.log).account())

    def test_reasons(self):
        """The logs of examples/diverged leave the program for the eight reasons."""
        folder = support.TOP / "examples/diverged"
        image = read_image((folder / "a.elf").read_bytes(), 4096)
        said = [line for line in (folder / "expected/stdout").read_text().splitlines() if line.startswith("end diverged ")]
        for n in range(1, 9):
            found = play(image, read_log((folder / "expected" / ("%d.log" % n)).read_bytes()))
            self.assertEqual(found.end[2], n)
            self.assertEqual(account_lines(found)[0][-1], said[n - 1])

    def test_transfers_that_do_not_fit(self):
        """A DMA record of another commit, or longer than the request, or without one, is reason 6."""
        image, log, played = support.played(support.example("input, plan.toml"))
        log = log._replace(mode=ORDER_ONLY, order=[c.actor for c in played.commits])
        self.assertEqual(play(image, log).end, played.end)
        ((at, data),) = log.dmas
        asked = next(c for c in played.commits if c.served and c.served.name == "dma")
        longest = asked.served.arguments[1]
        self.assertEqual(play(image, log._replace(dmas=[(at, bytes(longest))])).commits[at].kind, "dma")
        for dmas in ([(at, bytes(longest + 1))], [(at + 1, data)], [], [(at - 1, data)]):
            self.assertEqual(play(image, log._replace(dmas=dmas)).end, ("diverged", at, 6))
        first, moved = asked.number, list(log.order)
        moved.insert(first, moved.pop(at))
        self.assertEqual(play(image, log._replace(order=moved, dmas=[(first, data)])).end, ("diverged", first, 6))


class PlantedFaults(unittest.TestCase):
    def setUp(self):
        self.race = support.example("race, plan.toml")
        self.played = support.played(self.race)[2]
        self.account = self.race.account.read_bytes()

    def difference(self, account):
        with self.assertRaises(Differs) as raised:
            compare(self.played, account)
        return raised.exception.args[0]

    def test_in_each_line_of_the_account(self):
        lines = self.account.decode().splitlines(keepends=True)
        commit = None
        for j, line in enumerate(lines):
            if line.startswith("c "):
                commit = int(line.split()[1])
            elif not line.startswith(("l ", "o ")):
                commit = None
            changed = line[:-2] + ("1" if line[-2] != "1" else "2") + "\n"
            found = self.difference("".join(lines[:j] + [changed] + lines[j + 1 :]).encode())
            self.assertEqual((found.line, found.commit, found.theirs), (j + 1, commit, changed[:-1]))
            self.assertEqual(found.ours, line[:-1])

    def test_a_line_more_or_less(self):
        lines = self.account.splitlines(keepends=True)
        for j in range(len(lines)):
            self.difference(b"".join(lines[:j] + lines[j + 1 :]))
            self.difference(b"".join(lines[: j + 1] + [b"l 00000000 00000000\n"] + lines[j + 1 :]))
        self.difference(self.account[:-1])
        self.difference(b"")
        self.difference(self.account + b"\n")
        self.difference(b"\xff" + self.account)

    def test_the_place_is_told(self):
        found = self.difference(self.account.replace(b"l 00000600 00000004\n", b"l 00000600 00000005\n", 1))
        self.assertEqual(found.place, "commit 13, thread 1, pc 00000068")

    def test_in_the_interpreter(self):
        """An addition that is wrong by one when it comes to 5: the first wrong load is told."""
        wrong = isa._Operations()
        right = isa._addi

        def addi(rd, a, imm):
            f = right(rd, a, imm)

            def wrongly(x, pc, m):
                after = f(x, pc, m)
                if imm == 1 and x[rd] == 5:
                    x[rd] = 6
                return after

            return wrongly

        image, log = support.played(self.race)[:2]
        with mock.patch.object(isa, "_addi", addi), mock.patch.object(isa, "OPS", wrong):
            found = play(image, log)
        with self.assertRaises(Differs) as raised:
            compare(found, self.account)
        self.assertEqual(str(raised.exception), "line 58 of the account, commit 13, thread 1, pc 00000068: "
                         "the account has 'l 00000600 00000005', the interpreter 'l 00000600 00000006'")


if __name__ == "__main__":
    unittest.main()
