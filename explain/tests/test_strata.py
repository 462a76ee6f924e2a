"""Files that aren't strata, and strata that can't be replayed on their image."""

import struct
import unittest

from support import REPLAY, Explained, TOP
from test_logs import CUT, DAMAGED, EMPTY, moment, section

CUT_AGAIN = " Cut the log again, with `delorean strata` and this image."
OTHER = " Are these the image and the memory for which the log was cut?"


def strata(*there, version=1, counted=2, threads=15, size=100, sections=4 * EMPTY):
    return struct.pack("<4sBBHII", b"DLRS", version, counted, threads, size, len(there)) + b"".join(there) + sections


def chunks(*counts):
    return b"\0" + bytes(counts)


class Strata(Explained):
    def refused(self, data, number, where, text, place="byte"):
        self.put("a.strata", data)
        self.put("plan.toml", REPLAY.replace('log = "a.log"', 'strata = "a.strata"'))
        self.means("run plan.toml", 5, "refused strata 0 %d %d" % (number, where), "a.strata, %s %d: %s" % (place, where, text))

    def bad(self, data, offset, text):
        self.refused(data, 5, offset, text + "." + DAMAGED)

    def test_fields(self):
        self.refused(strata(chunks(1, 0))[:18], 1, 18, "the file ends inside the numbers of chunks in stratum 0 (2 bytes from "
                     "byte 17 on)."
                     + CUT)
        self.refused(b"DLRN" + bytes(12), 2, 0, "it doesn't begin with DLRS. It is a log: `delorean walk` plays it, and a "
                     "replayed sphere takes it by the key `log`.")
        self.refused(strata(version=2), 3, 4, "the version is 2, but it has to be 1." + DAMAGED)
        self.bad(strata(counted=64), 5, "the number of threads that are counted is 64, but it has to be 1 to 63")
        self.bad(strata(counted=16), 6, "the number of threads that the sphere may have is 15, but it has to be 63")
        self.bad(strata(size=15), 8, "the standard size of a chunk is 15, but it has to be 16 to 65,536")

    def test_each_stratum(self):
        self.bad(strata(b"\3"), 16, "the kind of stratum 0 is 3, but it has to be 0 to 2")
        self.bad(strata(b"\1\2"), 17, "the thread of stratum 0 is 2, but it has to be 0 or 1")
        self.bad(strata(b"\1\0", chunks(0, 0)), 18, "stratum 1 has no chunks")
        full = 16777216 // 255 // 2 + 1
        self.bad(strata(*full * [chunks(255, 255)]), 16 + 3 * (full - 1), "with stratum 32896 the commits are over 16,777,216")

    def test_sections(self):
        twice = section(moment(0, 1, ("I", 9)), moment(0, 1, ("I", 9)))
        self.refused(strata(sections=twice + 3 * EMPTY), 6, 29, "entry 1 of the sizes doesn't come after the one before "
                     "it." + DAMAGED)
        self.bad(strata(sections=section(moment(2, 1, ("I", 9))) + 3 * EMPTY), 20,
                 "the thread of entry 0 of the sizes is 2, but it has to be 0 or 1")
        self.refused(strata() + b"x", 7, 32, "1 byte follows the last section. Something was appended: `head -c 32` gives the "
                     "part before it.")

    def test_commits_that_do_not_fit(self):
        self.refused(strata(b"\1\0", b"\1\0"), 9, 0, "it is a chunk, but its stratum is for a serial step." + OTHER, "commit")
        self.refused(strata(chunks(2, 0)), 9, 1, "it is a serial step, but its stratum is for a chunk." + OTHER, "commit")
        self.refused(strata(chunks(0, 1)), 9, 0, "the play diverges there, for reason 1." + OTHER, "commit")
        left = section(moment(0, 9, ("I", 1))) + 3 * EMPTY
        self.refused(strata(chunks(1, 0), b"\1\0", sections=left), 9, 2, "the play diverges there, for reason 8." + OTHER, "commit")

    def test_commits_that_conflict(self):
        """The strata of an example, with its third and its fourth merged: one thread stores a word that the other loads."""
        example = TOP / "examples/two-threads"
        self.put("a.elf", (example / "a.elf").read_bytes())
        self.put("a.log", (example / "expected/a.log").read_bytes())
        self.assertEqual(self.answer(*"strata a.elf 4096 a.log a.strata".split()), (0, "strata 6 74"))
        with open("a.strata", "rb") as file:
            data = file.read()
        third = 16 + 3 + 2
        self.assertEqual(data[third : third + 6], chunks(0, 1) + chunks(1, 0))
        merged = data[:12] + b"\5" + data[13:third] + chunks(1, 1) + data[third + 6 :]
        self.refused(merged, 8, 3, "a chunk of thread 1 conflicts with commit 2, of thread 0, on the word at "
                     "00000100." + CUT_AGAIN, "commit")


if __name__ == "__main__":
    unittest.main()
