"""What the tests share: a folder with the files of a small recording, the program's answers there, and what is said of them."""

import os
import pathlib
import struct
import subprocess
import sys
import tempfile
import unittest

TOP = pathlib.Path(__file__).resolve().parent.parent.parent
sys.path.insert(0, str(TOP))

from explain.explaining import explain  # noqa: E402
from explain.rules import READERS, named_rule  # noqa: E402

TESTED = set()  # the readers and numbers of the rules that the tests so far have broken


def untested():
    """What all tests together should have broken, and haven't."""
    return [(reader, number) for reader, (_, _, rules) in READERS.items() for number in rules if (reader, number) not in TESTED]


SILENT = {**os.environ, "DELOREAN_EXPLAIN": "0"}


def program():
    """The program that bin/delorean takes, so that it looks for it once only; or bin/delorean, if that doesn't say."""
    found = subprocess.run([TOP / "bin/delorean", "--path"], stdout=subprocess.PIPE, env=SILENT, text=True)
    return found.stdout.rstrip("\n") if found.returncode == 0 else TOP / "bin/delorean"


PROGRAM = program()

PLAN = """cores = 1
chunk = 100
buffer = 16
window = 2
signature = 64
script = "s.txt"
report = "r.txt"
[[sphere]]
image = "a.elf"
memory = 4096
role = "record"
mode = "order-size"
log = "a.log"
account = "a.txt"
"""
REPLAY = PLAN.replace('"record"', '"replay"').replace('mode = "order-size"\n', "").replace('"a.txt"', '"b.txt"')
SCRIPT = "step 0\nstep 0\nstep 0\nask 0\nstep 0\nask 0\n"
CODE = bytes.fromhex("9308000013057000 73000000")  # addi x17, x0, 0; addi x10, x0, 7; ecall


def elf_header(entry=0, headers=52, many=1):
    return b"\x7fELF\1\1\1" + bytes(9) + struct.pack("<HHIIIIIHHH", 2, 243, 1, entry, headers, 0, 0, 52, 32, many) + bytes(6)


def program_header(at=0, filled=12, length=12, offset=84, kind=1):
    return struct.pack("<8I", kind, offset, at, 0, filled, length, 7, 4)


IMAGE = elf_header() + program_header() + CODE
# Version 1, order-size, chunks of 100, two commits: a chunk of two instructions, and the exit.
LOG = b"DLRN\1\0\0\0" + struct.pack("<III", 100, 2, 2) + b"\0" + struct.pack("<IHHIII", 2, 2, 0, 0, 0, 0)
FILES = {"plan.toml": PLAN, "s.txt": SCRIPT, "a.elf": IMAGE, "a.log": LOG, "a.s": "addi x17, x0, 0\necall\n"}


class Explained(unittest.TestCase):
    """Each test has a folder of its own with FILES, and is in it."""

    def setUp(self):
        folder = tempfile.TemporaryDirectory(prefix="answers-")
        self.addCleanup(folder.cleanup)
        self.addCleanup(os.chdir, os.getcwd())
        os.chdir(folder.name)
        for name, data in FILES.items():
            self.put(name, data)

    @staticmethod
    def put(name, data):
        pathlib.Path(name).write_bytes(data.encode() if isinstance(data, str) else data)

    @staticmethod
    def answer(*words, **options):
        """The status of the program for these words, and the last line that it puts."""
        done = subprocess.run([PROGRAM, *words], stdout=subprocess.PIPE, env=SILENT, **options)
        return done.returncode, done.stdout.decode(errors="surrogateescape").rstrip("\n").rpartition("\n")[2]

    def means(self, words, status, line, text):
        """The program answers so, and this is said of it, whether or not its line is known."""
        words = words.split(" ") if isinstance(words, str) else words
        TESTED.add(named_rule(line))
        self.assertEqual(self.answer(*words), (status, line))
        self.assertEqual(explain(status, words, line), text)
        self.assertEqual(explain(status, words), text)
