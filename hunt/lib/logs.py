"""Logs of versions 1 and 2: `read_log(bytes)` gives a Log, or raises Malformed with the number and offset of the first field
that isn't good; `write_log(log)` gives the bytes again."""

from collections import namedtuple

ORDER_SIZE, ORDER_ONLY, PICOLOG = range(3)
MODE_NAMES = ("order-size", "order-only", "picolog")
DMA = 63  # the actor of a DMA, in logs of both versions as they are read here
MOST_COMMITS = 1 << 24
KINDS = (2, 3, 4, 5, 16, 17)

# threads: the most that a sphere may have. s: the standard size. count: commits. order: actors (none in picolog). sizes: in
# order-size one for each commit, else (thread, index) -> size. interrupts: (thread, index) -> value. inputs: a list of Input.
# dmas: a list of (commit, bytes).
Log = namedtuple("Log", "version threads mode s count order sizes interrupts inputs dmas")
Input = namedtuple("Input", "kind result bytes")


class Malformed(Exception):
    """args: the number of what is wrong, and the offset."""


class Fields:
    def __init__(self, data):
        self.data, self.at = data, 0

    def take(self, width):
        if self.at + width > len(self.data):
            raise Malformed(1, len(self.data))
        self.at += width
        return self.data[self.at - width : self.at]

    def number(self, width, most=None, least=0, wrong=5):
        start = self.at
        v = int.from_bytes(self.take(width), "little")
        if v < least or (most is not None and v > most):
            raise Malformed(wrong, start)
        return v

    def one_of(self, width, values, wrong=5):
        start = self.at
        v = int.from_bytes(self.take(width), "little")
        if v not in values:
            raise Malformed(wrong, start)
        return v

    def rising(self, entry):
        """A counted section of (key, value) whose keys rise."""
        out, last = [], None
        for _ in range(self.number(4)):
            start = self.at
            key, value = entry()
            if last is not None and key <= last:
                raise Malformed(6, start)
            out.append((key, value))
            last = key
        return out


def read_log(data):
    f = Fields(bytes(data))
    f.one_of(4, (0x4E524C44,), 2)
    version = f.one_of(1, (1, 2), 3)
    mode = f.number(1, 2, wrong=4)
    wide = version == 2
    threads = f.one_of(2, (15, 63) if wide else (0,)) or 15
    s = f.number(4, 65536 if wide else 4096, 16)
    count = f.number(4, MOST_COMMITS)
    entries = f.one_of(4, (0 if mode == PICOLOG else count,))
    order = _bytes_order(f, entries, threads) if wide else _nibbles_order(f, entries)
    width = 4 if wide else 2

    def moment():
        return f.number(1, threads - 1), f.number(4)

    if mode == ORDER_SIZE:
        f.one_of(4, (count,))
        sizes = [f.number(width, s) for _ in range(count)]
    else:
        sizes = dict(f.rising(lambda: (moment(), f.number(width, s, 1))))
    return Log(version, threads, mode, s, count, order, sizes, *read_records(f, moment))


def read_records(f, moment):
    """The last sections: interrupts, inputs and DMAs; and nothing comes after them. `moment` reads a thread and an index."""
    interrupts = dict(f.rising(lambda: (moment(), f.number(4))))
    inputs = [Input(f.one_of(1, KINDS), f.number(4), f.take(f.number(2, 4096))) for _ in range(f.number(4))]
    dmas = f.rising(lambda: (f.number(4), f.take(f.number(2, 4096))))
    if f.at < len(f.data):
        raise Malformed(7, f.at)
    return interrupts, inputs, dmas


def _nibbles_order(f, entries):
    order = []
    for j in range(0, entries, 2):
        pair = f.number(1, 255 if j + 1 < entries else 15)
        order += (pair & 15, pair >> 4)
    del order[entries:]
    return [DMA if actor == 15 else actor for actor in order]


def _bytes_order(f, entries, threads):
    order = []
    for _ in range(entries):
        start = f.at
        actor = f.number(1)
        if actor >= threads and actor != DMA:
            raise Malformed(5, start)
        order.append(actor)
    return order


# ---------------------------------------------------------------- writing


def write_log(log):
    """The bytes of a log, in its version."""

    def number(v, width):
        return v.to_bytes(width, "little")

    wide = log.version == 2
    width = 4 if wide else 2
    out = [b"DLRN", number(log.version, 1), number(log.mode, 1), number(log.threads if wide else 0, 2), number(log.s, 4),
           number(log.count, 4), number(len(log.order), 4), bytes(log.order) if wide else _nibbles(log.order),
           number(len(log.sizes), 4)]
    if log.mode == ORDER_SIZE:
        out += [number(size, width) for size in log.sizes]
    else:
        out += [number(k, 1) + number(index, 4) + number(size, width) for (k, index), size in sorted(log.sizes.items())]
    out.append(number(len(log.interrupts), 4))
    out += [number(k, 1) + number(index, 4) + number(value, 4) for (k, index), value in sorted(log.interrupts.items())]
    out.append(number(len(log.inputs), 4))
    out += [number(r.kind, 1) + number(r.result, 4) + number(len(r.bytes), 2) + r.bytes for r in log.inputs]
    out.append(number(len(log.dmas), 4))
    out += [number(slot, 4) + number(len(data), 2) + data for slot, data in log.dmas]
    return b"".join(out)


def _nibbles(order):
    halves = [15 if actor == DMA else actor for actor in order] + [0] * (len(order) % 2)
    return bytes(low | high << 4 for low, high in zip(halves[::2], halves[1::2]))
