"""Files that aren't logs, for each reason and each field."""

import struct
import unittest

from support import IMAGE, LOG, REPLAY, Explained

DAMAGED = " The file is damaged: copy it again, or record it again."
CUT = " It was cut short: copy it again, or record it again."


def log(version, mode, order, sizes, *records, commits=1, s=100, threads=15):
    """The bytes of a log. order, sizes and the three records are sections: their counts and entries."""
    head = struct.pack("<4sBBHII", b"DLRN", version, mode, threads if version == 2 else 0, s, commits)
    return head + order + sizes + b"".join(records or (section(), section(), section()))


def section(*entries, count=None):
    return struct.pack("<I", len(entries) if count is None else count) + b"".join(entries)


def moment(thread, before, *more):
    """A thread, the number of its commits before, and what follows: (format, value)."""
    return struct.pack("<BI", thread, before) + b"".join(struct.pack("<" + form, v) for form, v in more)


def in_data(first, data):
    """An entry of the inputs or of DMA, with its bytes."""
    return first + struct.pack("<H", len(data)) + data


ONE = section(b"\0")  # the order of one commit, of thread 0
EMPTY = section()


class Logs(Explained):
    def refused(self, data, number, offset, text):
        self.put("a.log", data)
        self.means("inspect a.log", 5, "refused log 0 %d %d" % (number, offset), "a.log, byte " + text)

    def test_cut_short(self):
        self.put("a.log", b"")
        self.means("inspect a.log", 5, "refused log 0 1 0", "a.log: it is empty. Is it the file that you mean?")
        self.refused(LOG[:18], 1, 18, "18: the file ends inside the number of entries of the order (4 bytes from byte 16 "
                     "on)." + CUT)
        self.refused(LOG[:28], 1, 28, "28: the file ends inside the sizes (4 bytes from byte 25 on)." + CUT)

    def test_another_file(self):
        begins = "0: it doesn't begin with DLRN. "
        self.refused(b"XLRN" + LOG[4:], 2, 0, begins + "Is it the file that you mean?")
        self.refused(b"DLRT" + LOG[4:], 2, 0, begins + "It is a tail: `delorean tail` plays it, and no other command takes it.")
        self.refused(b"DLRS" + LOG[4:], 2, 0, begins + "It is strata, which only a replayed sphere takes, by the key `strata`.")
        self.refused(IMAGE, 2, 0, begins + "It is an ELF file: are the names in the right order?")
        self.refused("c 0 0 2\nend complete 1\n", 2, 0, begins + "Is it an account?")

    def test_version_and_mode(self):
        self.refused(LOG[:4] + b"\3" + LOG[5:], 3, 4, "4: the version is 3, but it has to be 1 or 2." + DAMAGED)
        self.refused(LOG[:5] + b"\3" + LOG[6:], 4, 5, "5: the mode is 3, but it has to be 0 to 2." + DAMAGED)

    def test_header(self):
        self.refused(log(1, 0, EMPTY, EMPTY)[:6] + b"\1" + LOG[7:], 5, 6,
                     "6: the field of two bytes after the mode is 1, but it has to be 0." + DAMAGED)
        self.refused(log(2, 0, EMPTY, EMPTY, threads=16), 5, 6,
                     "6: the number of threads that the log may have is 16, but it has to be 15 or 63." + DAMAGED)
        self.refused(log(1, 0, EMPTY, EMPTY, s=15), 5, 8, "8: the standard size of a chunk is 15, but it has to be 16 to "
                     "4,096." + DAMAGED)
        self.refused(log(2, 0, EMPTY, EMPTY, s=65537), 5, 8,
                     "8: the standard size of a chunk is 65,537, but it has to be 16 to 65,536." + DAMAGED)
        self.refused(log(1, 0, EMPTY, EMPTY, commits=16777217), 5, 12,
                     "12: the number of commits is 16,777,217, but it has to be 0 to 16,777,216." + DAMAGED)

    def test_order(self):
        self.refused(log(1, 0, EMPTY, EMPTY), 5, 16, "16: the number of entries of the order is 0, but it has to be 1." + DAMAGED)
        self.refused(log(1, 2, ONE, EMPTY), 5, 16, "16: the number of entries of the order is 1, but it has to be 0." + DAMAGED)
        self.refused(log(1, 0, section(b"\x10"), EMPTY), 5, 20, "20: the last byte of the order, whose high half is spare, is "
                     "16, but it has to be 0 to 15." + DAMAGED)
        self.refused(log(2, 0, section(b"\0", b"\x0f"), EMPTY, commits=2), 5, 21, "21: the actor of commit 1 is 15, but it has "
                     "to be a thread, 0 to 14, or 63 for a DMA." + DAMAGED)

    def test_sizes_in_order_size(self):
        self.refused(log(1, 0, ONE, EMPTY), 5, 21, "21: the number of entries of the sizes is 0, but it has to be 1." + DAMAGED)
        self.refused(log(1, 0, ONE, section(struct.pack("<H", 101))), 5, 25,
                     "25: the size of commit 0 is 101, but it has to be 0 to 100." + DAMAGED)
        self.refused(log(2, 0, ONE, section(struct.pack("<I", 101))), 5, 25,
                     "25: the size of commit 0 is 101, but it has to be 0 to 100." + DAMAGED)

    def test_sizes_of_short_chunks(self):
        self.refused(log(1, 1, ONE, section(moment(15, 0, ("H", 1)))), 5, 25,
                     "25: the thread of entry 0 of the sizes is 15, but it has to be 0 to 14." + DAMAGED)
        self.refused(log(1, 1, ONE, section(moment(0, 0, ("H", 0)))), 5, 30,
                     "30: the size in entry 0 of the sizes is 0, but it has to be 1 to 100." + DAMAGED)
        self.refused(log(2, 2, EMPTY, section(moment(0, 1, ("I", 9)), moment(0, 1, ("I", 9)))), 6, 33,
                     "33: entry 1 of the sizes doesn't come after the one before it." + DAMAGED)

    def test_interrupts(self):
        self.refused(log(1, 1, ONE, EMPTY, section(moment(1, 0, ("I", 7)), moment(0, 9, ("I", 7))), EMPTY, EMPTY), 6, 38,
                     "38: entry 1 of the interrupts doesn't come after the one before it." + DAMAGED)
        self.refused(log(1, 1, ONE, EMPTY, section(moment(99, 0, ("I", 7))), EMPTY, EMPTY), 5, 29,
                     "29: the thread of entry 0 of the interrupts is 99, but it has to be 0 to 14." + DAMAGED)

    def test_inputs(self):
        self.refused(log(1, 1, ONE, EMPTY, EMPTY, section(in_data(b"\6\0\0\0\0", b"")), EMPTY), 5, 33,
                     "33: the kind of entry 0 of the inputs is 6, but it has to be 2, 3, 4, 5, 16 or 17." + DAMAGED)
        self.refused(log(1, 1, ONE, EMPTY, EMPTY, section(b"\3\0\0\0\0\1\x10"), EMPTY), 5, 38,
                     "38: the length of entry 0 of the inputs is 4,097, but it has to be 0 to 4,096." + DAMAGED)
        self.refused(log(1, 1, ONE, EMPTY, EMPTY, section(b"\3\0\0\0\0\5\0ab")), 1, 42,
                     "42: the file ends inside the bytes of entry 0 of the inputs (5 bytes from byte 40 on)." + CUT)

    def test_dma(self):
        twice = section(in_data(b"\1\0\0\0", b"x"), in_data(b"\1\0\0\0", b"y"))
        self.refused(log(1, 1, ONE, EMPTY, EMPTY, EMPTY, twice), 6, 44,
                     "44: entry 1 of the DMA doesn't come after the one before it." + DAMAGED)

    def test_bytes_after_the_end(self):
        self.refused(LOG + b"\n", 7, 41, "41: 1 byte follows the last section. Something was appended: `head -c 41` gives the "
                     "part before it.")
        self.refused(LOG + b"12", 7, 41, "41: 2 bytes follow the last section. Something was appended: `head -c 41` gives the "
                     "part before it.")

    def test_each_command(self):
        self.put("a.log", LOG + b"\n")
        text = "a.log, byte 41: 1 byte follows the last section. Something was appended: `head -c 41` gives the part before it."
        self.put("plan.toml", REPLAY)
        for words in ("walk a.elf 4096 a.log", "interval a.elf 4096 a.log 1 0 1", "watch a.elf 4096 a.log 0",
                      "who a.elf 4096 a.log 0 1", "when a.elf 4096 a.log 0 0", "strata a.elf 4096 a.log x", "migrate a.log x",
                      "run plan.toml"):
            self.means(words, 5, "refused log 0 7 41", text)


if __name__ == "__main__":
    unittest.main()
