"""Logs of versions 1 and 2: `read_log(data)` raises Broken with the first field that isn't good."""

from array import array
import sys

from explain.fields import FIELD, MODE, VERSION, Fields, bad
from explain.words import MOST_COMMITS, range_of

ORDER_SIZE, PICOLOG = 0, 2
DMA = 63  # of the order in version 2
KINDS = (2, 3, 4, 5, 16, 17)
MOST_DATA = 4096


def read_log(data):
    f = Fields(data)
    f.beginning(b"DLRN")
    version = f.one_of(1, "the version", (1, 2), VERSION)
    read_header_and_order(f, version, MOST_COMMITS)
    f.end()


def read_tail_log(f, present, most):
    """The log inside a tail: of version 2, for at least `present` threads, with at most `most` commits."""
    f.beginning(b"DLRN")
    f.one_of(1, "the version of the log in the tail", (2,), VERSION)
    read_header_and_order(f, 2, most, present)


def read_header_and_order(f, version, most, present=0):
    mode = f.number(1, "the mode", PICOLOG, wrong=MODE)
    threads = read_threads(f, version, present)
    s = f.number(4, "the standard size of a chunk", 65536 if version == 2 else 4096, 16)
    commits = f.number(4, "the number of commits", most)
    entries = f.one_of(4, "the number of entries of the order", (0 if mode == PICOLOG else commits,))
    if version == 2:
        read_order(f, entries, threads)
    else:
        read_halves(f, entries)
    read_sizes(f, mode, version, s, commits, threads)
    read_records(f, threads)


def read_threads(f, version, present):
    """How many threads the log may have."""
    if version == 1:
        f.one_of(2, "the field of two bytes after the mode", (0,))
        return 15
    return f.one_of(2, "the number of threads that the log may have", [n for n in (15, 63) if n >= present])


def read_halves(f, entries):
    """The order of version 1: half a byte for each commit. Each is good, except that a spare last half is 0."""
    whole = entries // 2
    if entries % 2 and f.at + whole < len(f.data):
        f.at += whole
        f.number(1, "the last byte of the order, whose high half is spare,", 15)
    else:
        f.take(whole + entries % 2, "the order")


def read_order(f, entries, threads):
    """The order of version 2: a byte for each commit."""
    start = f.at
    there = f.data[start : start + entries]
    wrong = there.translate(None, bytes([*range(threads), DMA]))
    if wrong:
        at = start + min(there.index(byte) for byte in set(wrong))
        wanted = "a thread, 0 to %d, or %d for a DMA" % (threads - 1, DMA)
        raise bad(FIELD, at, "the actor of commit %d" % (at - start), f.data[at], wanted)
    f.take(entries, "the order")


def read_sizes(f, mode, version, s, commits, threads):
    width = 4 if version == 2 else 2
    if mode == ORDER_SIZE:
        f.one_of(4, "the number of entries of the sizes", (commits,))
        read_all_sizes(f, width, s, commits)
    else:
        read_short_sizes(f, width, s, threads)


def read_all_sizes(f, width, s, commits):
    """In order-size each commit has a size."""
    start = f.at
    there = array("I" if width == 4 else "H", f.data[start : start + min(commits, (len(f.data) - start) // width) * width])
    if sys.byteorder == "big":
        there.byteswap()
    if there and max(there) > s:
        i = next(i for i, size in enumerate(there) if size > s)
        raise bad(FIELD, start + i * width, "the size of commit %d" % i, there[i], range_of(0, s))
    f.take(commits * width, "the sizes")


def read_short_sizes(f, width, s, threads):
    """In the other modes only chunks that were closed early have one."""

    def size(name):
        key = read_moment(f, name, threads)
        f.number(width, "the size in %s" % name, s, 1)
        return key

    f.rising("the sizes", size)


def read_moment(f, name, threads):
    """A thread, and the number of its commits before."""
    thread = f.number(1, "the thread of %s" % name, threads - 1)
    return thread, f.number(4, "the commits before %s" % name)


def read_records(f, threads):
    """The sections that all logs have alike: interrupts, inputs and DMA."""

    def interrupt(name):
        key = read_moment(f, name, threads)
        f.number(4, "the value of %s" % name)
        return key

    def dma(name):
        commit = f.number(4, "the commit of %s" % name)
        read_bytes(f, name)
        return commit

    f.rising("the interrupts", interrupt)
    for i in range(f.number(4, "the number of the inputs")):
        name = "entry %d of the inputs" % i
        f.one_of(1, "the kind of %s" % name, KINDS)
        f.number(4, "the result of %s" % name)
        read_bytes(f, name)
    f.rising("the DMA", dma)


def read_bytes(f, name):
    f.take(f.number(2, "the length of %s" % name, MOST_DATA), "the bytes of %s" % name)
