"""Tails: `read_tail(data)` raises Broken with the first field that isn't good, its offset in the whole file."""

from explain.fields import FIELD, VERSION, Fields, bad
from explain.log import read_tail_log
from explain.refusal import Broken
from explain.words import MOST_COMMITS, MOST_MEMORY, range_of

NO_THREAD, ROW, MOST_THREADS, MOST_LENGTH, MOST_CAUSE = 255, 32, 63, 4096, 7
LIVE, ENDED, FAULTED = range(3)


def read_tail(data):
    f = Fields(data)
    f.beginning(b"DLRT")
    f.one_of(1, "the version", (1,), VERSION)
    f.one_of(1, "the byte after the version", (0,))
    present = f.number(2, "the number of threads", MOST_THREADS, 1)
    base = f.number(4, "the base", MOST_COMMITS)
    read_last(f, present)
    memory = f.number(4, "the size of the memory", MOST_MEMORY, read_request(f), 4096)
    for k in range(present):
        read_thread(f, k, base)
    f.rising("the rows", lambda name: read_row(f, name, memory))
    read_tail_log(f, present, MOST_COMMITS - base)
    f.end()


def read_last(f, present):
    """The thread that committed last."""
    start = f.at
    last = f.number(1, "the last thread")
    if last != NO_THREAD and last >= present:
        raise bad(FIELD, start, "the last thread", last, "%s, or 255 for none" % (range_of(0, present - 1) if present > 1 else "0"))


def read_request(f):
    """The outstanding DMA; gives the least size of a memory for it."""
    is_asked = f.number(1, "the mark of a DMA request", 1)
    f.one_of(2, "the field of two bytes after the mark of a DMA request", (0,))
    buffer = f.number(4, "the buffer of the DMA request", None if is_asked else 0, 0, 4)
    length = f.number(4, "the length of the DMA request", MOST_LENGTH if is_asked else 0)
    return max(4096, buffer + 4 + length if is_asked else 0)


def read_thread(f, k, base):
    name = "of thread %d" % k
    status = f.number(1, "the status %s" % name, FAULTED)
    is_masked = f.number(1, "the mask %s" % name, 1)
    f.one_of(2, "the field of two bytes after the mask %s" % name, (0,))
    f.number(4, "the code or cause %s" % name, {LIVE: 0, ENDED: None, FAULTED: MOST_CAUSE}[status])
    saved = None if is_masked else 0
    f.number(4, "the program counter %s" % name, step=4)
    f.number(4, "the handler %s" % name, step=4)
    f.number(4, "the saved program counter %s" % name, saved, step=4)
    f.number(4, "the saved a0 %s" % name, saved)
    f.number(4, "the saved a1 %s" % name, saved)
    f.number(4, "the number of commits %s" % name, base)
    for register in range(1, 32):
        f.number(4, "x%d %s" % (register, name))


def read_row(f, name, memory):
    number = f.number(4, "the number of %s" % name, memory // ROW - 1)
    start = f.at
    if not any(f.take(ROW, "the bytes of %s" % name)):
        raise Broken((FIELD, start), "the bytes of %s are all 0, and such a row is left out" % name, "byte %d" % start)
    return number
