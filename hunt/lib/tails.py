"""Tails, the last parts of recordings in epochs, as docs/formats.md has them: `read_tail(bytes)` gives a Tail, or raises Malformed
with the number and offset of the first field that isn't good."""

from collections import namedtuple

from .logs import MOST_COMMITS, Fields, Malformed, read_log
from .machine import Registers

MAGIC, NOBODY = 0x54524C44, 255
PAGE, MOST_MEMORY, ROW = 4096, 1 << 24, 32
ALIGNED = range(0, 1 << 32, 4)  # of addresses
STATES = "live", "ended", "fault"

# base: the commits before it. last: the thread that committed last, or None. request: the outstanding DMA as (buffer, length), or
# None. threads: Registers of each. memory: bytes. log: of the commits from the base on. head: the file's bytes before the log.
Tail = namedtuple("Tail", "base last request threads memory log head")


def is_tail(data):
    return data[:4] == MAGIC.to_bytes(4, "little")


def read_tail(data):
    f = Fields(bytes(data))
    f.one_of(4, (MAGIC,), 2)
    f.one_of(1, (1,), 3)
    f.one_of(1, (0,))
    present = f.number(2, 63, 1)
    base = f.number(4, MOST_COMMITS)
    last = f.one_of(1, (*range(present), NOBODY))
    requested = f.number(1, 1)
    f.one_of(2, (0,))
    buffer = f.one_of(4, ALIGNED if requested else (0,))
    length = f.number(4, PAGE if requested else 0)
    least = max(PAGE, buffer + 4 + length if requested else 0)
    size = f.one_of(4, range(-(-least // PAGE) * PAGE, MOST_MEMORY + 1, PAGE))
    threads = [read_thread(f, base) for _ in range(present)]
    memory = read_memory(f, size)
    log = log_at(f.data, f.at, present, base)
    return Tail(base, None if last == NOBODY else last, (buffer, length) if requested else None, threads, memory, log,
                f.data[: f.at])


def read_thread(f, base):
    """The Registers of a thread. How many interrupts it took before isn't in the file: one that it is in counts as its first."""
    status = f.number(1, 2)
    masked = f.number(1, 1)
    f.one_of(2, (0,))
    code = f.number(4, (0, None, 7)[status])  # or the cause
    pc, handler = (f.one_of(4, ALIGNED) for _ in range(2))
    saved = f.one_of(4, ALIGNED if masked else (0,)), *(f.number(4, None if masked else 0) for _ in range(2))
    commits = f.number(4, base)
    x = 0, *(f.number(4) for _ in range(31)), 0
    return Registers(pc, x, None, handler, bool(masked), saved, (STATES[status], code), commits, masked)


def read_memory(f, size):
    rows = f.rising(lambda: (f.number(4, size // ROW - 1), f.number(ROW, least=1)))
    memory = bytearray(size)
    for number, row in rows:
        memory[ROW * number : ROW * number + ROW] = row.to_bytes(ROW, "little")
    return bytes(memory)


def log_at(data, at, present, base):
    """The log that begins there. What a tail asks of it beyond that it is a log is said by the first field that isn't good."""
    rest = data[at:]
    wrong = []
    if rest[4:5] == b"\1":
        wrong.append((4, 3))
    if len(rest) >= 8 and int.from_bytes(rest[6:8], "little") < present:
        wrong.append((6, 5))
    if len(rest) >= 16 and base + int.from_bytes(rest[12:16], "little") > MOST_COMMITS:
        wrong.append((12, 5))
    try:
        log = read_log(rest)
    except Malformed as fault:
        number, offset = fault.args
        wrong.append((offset, number))
    if wrong:
        offset, number = min(wrong)
        raise Malformed(number, at + offset)
    return log
