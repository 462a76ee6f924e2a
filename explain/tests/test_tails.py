"""Files that aren't tails, field by field."""

import struct
import unittest

from support import Explained
from test_logs import CUT, DAMAGED, EMPTY, ONE, log

INNER = log(2, 0, ONE, ONE[:4] + b"\1\0\0\0")


def header(version=1, spare=0, threads=1, base=4, last=0, is_asked=0, spare2=0, buffer=0, length=0, memory=4096):
    return struct.pack("<4sBBHIBBHIII", b"DLRT", version, spare, threads, base, last, is_asked, spare2, buffer, length, memory)


def thread(status=0, masked=0, spare=0, code=0, pc=0, handler=0, saved=(0, 0, 0), commits=4):
    return struct.pack("<BBH8I", status, masked, spare, code, pc, handler, *saved, commits, 0)[:32] + bytes(31 * 4)


def row(number, data=b"\1" + bytes(31)):
    return struct.pack("<I", number) + data


def rows(*there):
    return struct.pack("<I", len(there)) + b"".join(there)


GOOD = header() + thread() + rows(row(0)) + INNER
THREAD, ROWS = 28, 28 + 32 + 124
LOG_AT = ROWS + 4 + 36


class Tails(Explained):
    def refused(self, data, number, offset, text):
        self.put("a.tail", data)
        self.means("tail a.tail", 5, "refused log 0 %d %d" % (number, offset), "a.tail, byte %d: %s" % (offset, text))

    def bad(self, data, offset, text):
        self.refused(data, 5, offset, text + "." + DAMAGED)

    def test_a_good_one_is_played(self):
        self.put("a.tail", GOOD)
        self.assertIn(self.answer("tail", "a.tail")[0], (0, 1))

    def test_cut_short(self):
        self.refused(GOOD[:30], 1, 30, "the file ends inside the field of two bytes after the mask of thread 0 (2 bytes from "
                     "byte 30 on)."
                     + CUT)
        self.refused(GOOD[: ROWS + 20], 1, ROWS + 20,
                     "the file ends inside the bytes of entry 0 of the rows (32 bytes from byte %d on)." % (ROWS + 8) + CUT)

    def test_another_file(self):
        self.refused(INNER, 2, 0, "it doesn't begin with DLRT. It is a log: `delorean walk` plays it, and a replayed sphere "
                     "takes it by the key `log`.")

    def test_header(self):
        self.refused(header(version=2), 3, 4, "the version is 2, but it has to be 1." + DAMAGED)
        self.bad(header(spare=1), 5, "the byte after the version is 1, but it has to be 0")
        self.bad(header(threads=64), 6, "the number of threads is 64, but it has to be 1 to 63")
        self.bad(header(base=16777217), 8, "the base is 16,777,217, but it has to be 0 to 16,777,216")
        self.bad(header(last=1), 12, "the last thread is 1, but it has to be 0, or 255 for none")
        self.bad(header(threads=3, last=7), 12, "the last thread is 7, but it has to be 0 to 2, or 255 for none")
        self.bad(header(memory=4097), 24, "the size of the memory is 4,097, but it has to be a multiple of 4,096 from 4,096 to "
                 "16,777,216")

    def test_request(self):
        self.bad(header(is_asked=2), 13, "the mark of a DMA request is 2, but it has to be 0 or 1")
        self.bad(header(spare2=1), 14, "the field of two bytes after the mark of a DMA request is 1, but it has to be 0")
        self.bad(header(buffer=4), 16, "the buffer of the DMA request is 4, but it has to be 0")
        self.bad(header(is_asked=1, buffer=2), 16, "the buffer of the DMA request is 2, but it has to be a multiple of 4")
        self.bad(header(length=1), 20, "the length of the DMA request is 1, but it has to be 0")
        self.bad(header(is_asked=1, length=4097), 20, "the length of the DMA request is 4,097, but it has to be 0 to 4,096")
        self.bad(header(is_asked=1, buffer=4092, length=4), 24, "the size of the memory is 4,096, but it has to be a multiple "
                 "of 4,096 from 4,100 to 16,777,216")

    def test_threads(self):
        for at, text, fields in (
                (0, "the status of thread 0 is 3, but it has to be 0 to 2", {"status": 3}),
                (1, "the mask of thread 0 is 2, but it has to be 0 or 1", {"masked": 2}),
                (2, "the field of two bytes after the mask of thread 0 is 1, but it has to be 0", {"spare": 1}),
                (4, "the code or cause of thread 0 is 1, but it has to be 0", {"code": 1}),
                (4, "the code or cause of thread 0 is 8, but it has to be 0 to 7", {"status": 2, "code": 8}),
                (8, "the program counter of thread 0 is 2, but it has to be a multiple of 4", {"pc": 2}),
                (12, "the handler of thread 0 is 6, but it has to be a multiple of 4", {"handler": 6}),
                (16, "the saved program counter of thread 0 is 4, but it has to be 0", {"saved": (4, 0, 0)}),
                (20, "the saved a0 of thread 0 is 1, but it has to be 0", {"saved": (0, 1, 0)}),
                (24, "the saved a1 of thread 0 is 1, but it has to be 0", {"saved": (0, 0, 1)}),
                (28, "the number of commits of thread 0 is 5, but it has to be 0 to 4", {"commits": 5})):
            with self.subTest(text):
                self.bad(header() + thread(**fields) + bytes(100), THREAD + at, text)

    def test_rows(self):
        start = header() + thread()
        self.bad(start + rows(row(128)), ROWS + 4, "the number of entry 0 of the rows is 128, but it has to be 0 to 127")
        self.bad(start + rows(row(0, bytes(32))), ROWS + 8,
                 "the bytes of entry 0 of the rows are all 0, and such a row is left out")
        self.refused(start + rows(row(1), row(1)), 6, ROWS + 40, "entry 1 of the rows doesn't come after the one before "
                     "it." + DAMAGED)

    def test_the_log_inside(self):
        start = header(threads=1) + thread() + rows(row(0))
        self.refused(start + b"XLRN", 2, LOG_AT, "a log that begins with DLRN should be here. The file is damaged: copy it again.")
        self.refused(start + log(1, 0, EMPTY, EMPTY), 3, LOG_AT + 4, "the version of the log in the tail is 1, but it has to "
                     "be 2." + DAMAGED)
        many = header(threads=16) + 16 * thread() + rows(row(0))
        self.bad(many + INNER, len(many) + 6, "the number of threads that the log may have is 15, but it has to be 63")
        late = header(base=16777216) + thread() + rows(row(0))
        self.bad(late + INNER, len(late) + 12, "the number of commits is 1, but it has to be 0")
        self.refused(GOOD + b"x", 7, len(GOOD), "1 byte follows the last section. Something was appended: `head -c %d` gives "
                     "the part before it."
                     % len(GOOD))


if __name__ == "__main__":
    unittest.main()
