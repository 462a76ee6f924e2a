"""What hunt/find says of programs in `told`, each with one bug, and that it clears their mended twins."""

from pathlib import Path
import os
import re
import sys
import tempfile
import unittest

HERE = Path(__file__).resolve().parent
sys.path.insert(0, str(HERE.parent / "examples"))

from measuring import ours  # noqa: E402

HAS_PROGRAM = bool(os.environ.get("DELOREAN")) or (ours.TOP / "out/delorean").is_file()
MIXED = "--bad", 'console has "[a[b"'


@unittest.skipUnless(HAS_PROGRAM, "programs with bugs: the proved program isn't built")
class Told(unittest.TestCase):
    def find(self, name, *words):
        with tempfile.TemporaryDirectory() as folder:
            return ours.find(HERE / "told" / (name + ".c"), Path(folder) / "out", *words)

    def told(self, name, *words):
        """What is told; no order of the mended twin fails."""
        status, found = self.find(name, *words)
        self.assertEqual(status, 1, found)
        self.assertEqual(self.find(name, "-DMENDED", *words)[0], 0)
        return found["found"]

    def test_a_place_that_the_library_keeps(self):
        told = self.told("strtok")
        self.assertIn("strtok.c:30: main: assertion failed", told["console"])

    def test_a_lock_whose_holder_has_ended(self):
        (line,) = [line for line in self.told("longjump")["waits"] if "waits for mutex lock" in line]
        self.assertRegex(line, r"; thread \d \(work\) has ended, and holds it since take, longjump.c:9$")

    def test_what_is_printed_in_between(self):
        first, second = self.told("lineparts", *MIXED)["why"]
        self.assertRegex(first, r'^thread (\d) is left after it prints "\[.*, lineparts.c:10\); thread (?!\1)\d prints ')
        self.assertRegex(second, r'^    and thread \d prints "\]\\n" .*, lineparts.c:11\) only then$')

    def test_a_store_that_comes_too_late(self):
        first, second, third = self.told("timedout")["why"]
        self.assertRegex(third, r"^thread 0 \(main\) fails with what it finds: a stack, \w+ = 00000000 \(commit \d+, main, timedout.c:38\), "
                                r"which thread 1 has stored \(commit \d+, receiver, timedout.c:18\)$")
        self.assertRegex(first, r"; thread 1 loads 00000000 of message \(commit \d+, receiver, timedout.c:18\),$")
        self.assertRegex(second, r"thread 0 stores 00000007 there only then \(commit \d+, main, timedout.c:33\)$")

    def test_what_a_wait_until_a_time_answered(self):
        order = self.told("timedout")["order"]
        self.assertTrue(any(re.search(r"answers +pthread_cond_timedwait: ETIMEDOUT +receiver, timedout.c:17$", row) for row in order), order)

    def test_a_verdict_that_rests_on_the_clock(self):
        covered = self.find("timedout", "-DMENDED", "--tick", "50")[1]["covered"]
        self.assertIn("with however many switches, if the clock goes on by 50 each time that it is read (--tick): all states", covered[0])
        self.assertNotIn("clock", self.find("parts", "-DMENDED")[1]["covered"][0])

    def test_a_store_to_a_freed_block(self):
        """It is told at its own line, also if another thread has got the block's bytes since."""
        for words, forced in (((), 2), (("--keep-freed",), 1)):
            told = self.told("reuse", *words)
            self.assertEqual(told["forced"], forced)
            self.assertRegex(told["broken"][0], r"^thread 2 \(raises\) stored to the freed block of reuse.c:38: raises, reuse.c:31; "
                                                r"freed by thread 1 \(closes\): closes, reuse.c:15$")
            self.assertRegex(told["why"][0], r"^thread 2 stores to the block of reuse.c:38 \(commit \d+, raises, reuse.c:31\), which thread 1 "
                                             r"has freed \(commit \d+, closes, reuse.c:15\)$")
            self.assertTrue(any(re.search(r"stores +freed block of .* raises, reuse.c:31  <- thread 1 has freed it$", row)
                                for row in told["order"]), told["order"])

    def test_who_has_freed_it(self):
        """Also if that was realloc, or the library at a thread's end."""
        told = self.told("grow")
        self.assertEqual(told["broken"], [
            "thread 1 (adds) stored to the freed block of grow.c:27: adds, grow.c:21; freed by thread 2 (adds): append, grow.c:10"])
        self.assertTrue(any(re.search(r"frees +block of grow.c:27 +append, grow.c:10$", row) for row in told["order"]), told["order"])
        self.assertRegex(self.told("destructor")["why"][0], r"^thread 2 loads from the block of destructor.c:10 \(commit \d+, user, "
                         r"destructor.c:24\), which thread 1 has freed \(commit \d+, __destroy_specifics, keys.c:\d+\)$")

    def test_parts_of_variables(self):
        told = self.told("parts")
        order = "\n".join(told["order"])
        for row in (r"takes +queue\.lock ", r"stores +queue\.tail ", r"stores +queue\.ring\[2\]\.sequence ", r"stores +queue\.ring\[2\]\.kind "):
            self.assertRegex(order, row)
        _, found = self.find("parts", "--bad", "word queue.ring[2].sequence = 5 and word take::taken[1] = 6", "-DMENDED")
        self.assertRegex("\n".join(found["found"]["order"]), r"stores +take::taken\[1\] +00000006 over 00000000 ")

    def test_fields_of_blocks(self):
        """By the pointers through which they are reached. Offset 6 is reached as `mark` and as `its_mark`, so it keeps its number, and so
        do all of a block whose bytes were another line's before."""
        order = "\n".join(self.told("fields")["order"])
        for part in ("->next", "->kind", "->value", "->range[1].high", "+6"):
            self.assertRegex(order, r"stores +block of fields\.c:11%s " % re.escape(part))
        for part in ("", "+8"):
            self.assertRegex(order, r"stores +block of fields\.c:37%s " % re.escape(part))
        self.assertNotRegex(order, r"->(its_)?mark|fields\.c:(34|37)->")
        self.assertRegex(order, r"loads +block of fields\.c:11->value +0000000[12] +main, fields\.c:47")

    def test_who_could_have_woken_it(self):
        """Nothing is stale here: the signal has come before the wait."""
        why = self.told("parts")["why"]
        self.assertTrue(any(re.search(r"^thread 1 \(take\) waits for condition queue.filled \(take, parts.c:21\); thread 2 signalled it "
                                      r"before that \(commit \d+, put, parts.c:33\), and nobody has since$", line) for line in why), why)

    def test_what_a_thread_that_fails_had_found(self):
        why = self.told("ordered")["why"]
        self.assertTrue(any(re.search(r"^thread 2 \(second\) fails with what it finds: stage = 00000001 \(commit \d+, second, ordered.c:25\), "
                                      r"which thread 1 has stored \(commit \d+, first, ordered.c:15\)$", line) for line in why), why)

    def test_an_order_is_cut_to_what_matters(self):
        order = self.told("ordered")["order"]
        self.assertLess(len(order), 40)
        self.assertTrue(any(re.search(r"^ +\.\. \d+ more$", row) for row in order), order)
        for row in ("frees +block of ordered.c:35", "gives back +lock +first", "takes +lock +second", "stores +stage +00000001", "loads +stage"):
            self.assertTrue(any(re.search(row, line) for line in order), row)

    def test_the_heap_is_looked_at_though_a_thread_was_not_joined(self):
        """In the orders in which it has ended by then. In the others it is left out, and nothing is said of the heap."""
        told = self.told("unjoined")
        self.assertIn("malloc: written past the end of the block at ", told["console"])
        self.assertEqual(told["broken"], ["thread 1 (write_past) stored past the end of the block of unjoined.c:15: write_past, unjoined.c:18"])
        self.assertEqual((told["threads"][1]["state"], told["threads"][1]["code"]), ("ended", 0))


if __name__ == "__main__":
    unittest.main()
