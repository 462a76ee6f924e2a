"""`pack` is the inverse of `inspect`: for the logs of the examples, and random ones of both versions; bad texts are refused by
their first wrong line."""

import random
import subprocess
import tempfile
import unittest
from pathlib import Path

import support
from lib.account import program
from lib.logs import DMA, KINDS, ORDER_SIZE, PICOLOG, Input, Log, Malformed, read_log, write_log
from lib.logtext import BadText, inspected, packed


def example_logs():
    for file in sorted([*support.TOP.glob("examples/**/*.log"), *support.TOP.glob("hunt/examples/**/*.log")]):
        try:
            read_log(file.read_bytes())
        except Malformed:
            continue
        yield file


def some_bytes(rng):
    return rng.randbytes(rng.choice((0, 0, 1, 3, 40, 4096 if rng.random() < 0.02 else 7)))


def random_log(seed):
    rng = random.Random(seed)
    version, mode = rng.choice((1, 2)), rng.randrange(3)
    threads = 15 if version == 1 else rng.choice((15, 63))
    s = rng.choice((16, 100, 4096)) if version == 1 else rng.choice((16, 4096, 65536))
    count = rng.randrange(0, 40)
    word = lambda: rng.choice((0, 1, rng.getrandbits(32), 0xFFFFFFFF))  # noqa: E731
    moments = lambda: sorted({(rng.randrange(threads), word()) for _ in range(rng.randrange(6))})  # noqa: E731
    order = [] if mode == PICOLOG else [rng.choice((DMA, rng.randrange(threads), 0)) for _ in range(count)]
    sizes = [rng.randrange(s + 1) for _ in range(count)] if mode == ORDER_SIZE else {m: rng.randrange(1, s + 1) for m in moments()}
    inputs = [Input(rng.choice(KINDS), word(), some_bytes(rng)) for _ in range(rng.randrange(5))]
    dmas = [(at, some_bytes(rng)) for at in sorted({word() for _ in range(rng.randrange(4))})]
    return Log(version, threads, mode, s, count, order, sizes, {m: word() for m in moments()}, inputs, dmas)


GOOD = """log 1 order-size 100 3
p 0 0 2
p 1 63 0
p 2 0 0
i 0 1 0000002A
i 1 0 FFFFFFFF
n 3 00000002 9308
n 5 00000007 -
d 1 AB
"""
SHORT = "log 2 order-only 65536 1\nthreads 63\np 0 62 -\nz 0 0 1\nz 0 3 65536\n"
TURNS = "log 1 picolog 16 2\nz 1 0 4\n"

# A text, what is put for what, and the line that is refused.
BAD = [
    (GOOD, "log 1", "log 3", 1), (GOOD, "log 1", "log 01", 1), (GOOD, "order-size", "order", 1), (GOOD, " 100 ", " 15 ", 1),
    (GOOD, " 100 ", " 4097 ", 1), (GOOD, " 100 3", " 100 -3", 1), (GOOD, " 100 3", " 100 16777217", 1), (GOOD, "log", "lag", 1),
    (GOOD, "size 100", "size  100", 1), (GOOD, "p 0 0 2", "p 1 0 2", 2), (GOOD, "p 0 0 2", "p 0 0 -", 2),
    (GOOD, "p 0 0 2", "p 0 0 101", 2), (GOOD, "p 0 0 2", "p 0 15 2", 2), (GOOD, "p 1 63 0", "p 1 64 0", 3), (GOOD, "p 0 0 2", "p 0 0 2 ", 2),
    (GOOD, "p 0 0 2", "q 0 0 2", 2), (GOOD, "p 0 0 2", "P 0 0 2", 2), (GOOD, "p 0 0 2", "p 0 0 2\r", 2),
    (GOOD, "p 0 0 2", "p 0 ٣ 2", 2), (GOOD, "p 0 0 2", "", 2), (GOOD, "p 2 0 0\n", "", 9), (GOOD, "p 2 0 0\n", "p 2 0 0\np 3 0 0\n", 5),
    (GOOD, "i 0 1 0000002A", "i 0 1 0000002a", 5), (GOOD, "i 0 1 0000002A", "i 0 1 2A", 5), (GOOD, "i 1 0 F", "i 0 1 F", 6),
    (GOOD, "i 1 0 F", "i 15 0 F", 6), (GOOD, "i 0 1 0", "z 0 0 1\ni 0 1 0", 5), (GOOD, "n 3 ", "n 6 ", 7), (GOOD, "9308", "930", 7),
    (GOOD, "9308", "9308ab", 7), (GOOD, "9308", "00" * 4097, 7), (GOOD, "9308", "", 7), (GOOD, "d 1 AB", "d 4294967296 AB", 9),
    (GOOD, "d 1 AB\n", "d 1 AB\nd 1 AB\n", 10), (GOOD, "d 1 AB\n", "d 1 AB\ni 2 0 00000000\n", 10), (GOOD, "d 1 AB\n", "d 1 AB", 9),
    (GOOD, "d 1 AB\n", "d 1 AB\n\n", 10), (SHORT, "threads 63", "threads 16", 2), (SHORT, "threads 63\n", "", 2),
    (SHORT, "p 0 62 -", "p 0 64 -", 3), (SHORT, "p 0 62 -", "p 0 62 1", 3), (SHORT, "threads 63", "threads 15", 3),
    (SHORT, "z 0 0 1", "z 0 0 0", 4), (SHORT, "z 0 3 65536", "z 0 3 65537", 5), (SHORT, "z 0 3", "z 0 0", 5),
    (TURNS, "z 1", "p 0 0 1\nz 1", 2), (TURNS, "z 1", "z 15", 2), ("", "", "", 1), ("log 2 picolog 16 0\n", "", "", 2),
]


class Packing(unittest.TestCase):
    def test_example_logs(self):
        files = list(example_logs())
        self.assertGreater(len(files), 20)
        for file in files:
            log = read_log(file.read_bytes())
            self.assertEqual(write_log(packed(inspected(log))), file.read_bytes(), file)

    @unittest.skipUnless(support.can_walk(), support.NOT_BUILT)
    def test_inspected_logs(self):
        for file in example_logs():
            text = subprocess.run([*program(), "inspect", str(file)], capture_output=True).stdout.decode()
            self.assertEqual(write_log(packed(text)), file.read_bytes(), file)

    def test_random_logs(self):
        for seed in range(1000):
            log = random_log(seed)
            text = inspected(log)
            self.assertEqual(packed(text), log, seed)
            self.assertEqual(read_log(write_log(packed(text))), log, seed)

    @unittest.skipUnless(support.can_walk(), support.NOT_BUILT)
    def test_random_logs_inspected(self):
        with tempfile.TemporaryDirectory() as folder:
            file = Path(folder) / "a.log"
            for seed in range(0, 1000, 25):
                file.write_bytes(write_log(random_log(seed)))
                inspection = subprocess.run([*program(), "inspect", str(file)], capture_output=True)
                self.assertEqual(write_log(packed(inspection.stdout.decode())), file.read_bytes(), seed)

    def test_bad_texts(self):
        for text, old, new, line in BAD:
            self.assertTrue(old in text)
            with self.subTest(text.replace(old, new, 1)[:200]), self.assertRaises(BadText) as caught:
                packed(text.replace(old, new, 1))
            self.assertEqual(caught.exception.args[0], line, (text.replace(old, new, 1)[:200], str(caught.exception)))

    def test_edited_texts(self):
        lines = GOOD.splitlines()
        moved = "\n".join(["# tried", lines[0], lines[3], "", lines[1], *lines[4:]]) + "\n"
        log = packed(moved, edited=True)
        self.assertEqual((log.count, log.order, log.sizes), (2, [0, 0], [0, 2]))
        with self.assertRaises(BadText):
            packed(moved)
        self.assertEqual(packed(GOOD, edited=True), packed(GOOD))


class Command(unittest.TestCase):
    def test_pack(self):
        with tempfile.TemporaryDirectory() as folder:
            log = Path(folder) / "a.log"
            said = subprocess.run([support.TOP / "hunt/pack", "-", log], input=GOOD.encode(), capture_output=True)
            self.assertEqual((said.returncode, said.stdout), (0, b"packed %d\n" % log.stat().st_size))
            log.unlink()
            said = subprocess.run([support.TOP / "hunt/pack", "-", log], input=GOOD[:-1].encode(), capture_output=True)
            self.assertEqual((said.returncode, said.stdout), (1, b"refused text line 9: the last line doesn't end with a line feed\n"))
            self.assertFalse(log.exists())


if __name__ == "__main__":
    unittest.main()
