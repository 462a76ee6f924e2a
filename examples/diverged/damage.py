"""Writes 1.log to 8.log: each is a.log, a log in order-size, with one change that no longer fits the program.

Each is still a log, so it isn't refused: its replay diverges, for the reason of its number.
"""
import copy
import struct
from pathlib import Path


class Log:
    """The sections of a log in order-size, as lists of their entries."""

    def __init__(self, data):
        self.head, self.at, self.data = data[:16], 16, data
        count = self.take("<I")[0]
        nibbles = [half for byte in self.bytes((count + 1) // 2) for half in (byte & 15, byte >> 4)]
        self.order = nibbles[:count]
        self.sizes = [self.take("<H")[0] for _ in range(self.take("<I")[0])]
        self.interrupts = [list(self.take("<BII")) for _ in range(self.take("<I")[0])]
        self.inputs = [self.with_bytes("<BIH") for _ in range(self.take("<I")[0])]
        self.dmas = [self.with_bytes("<IH") for _ in range(self.take("<I")[0])]

    def bytes(self, length):
        self.at += length
        return self.data[self.at - length:self.at]

    def take(self, form):
        return struct.unpack(form, self.bytes(struct.calcsize(form)))

    def with_bytes(self, form):
        *fields, length = self.take(form)
        return [*fields, self.bytes(length)]

    def written(self):
        nibbles = self.order + [0] * (len(self.order) % 2)
        order = bytes(low | high << 4 for low, high in zip(nibbles[::2], nibbles[1::2]))
        sections = [
            (self.order, order),
            (self.sizes, b"".join(struct.pack("<H", size) for size in self.sizes)),
            (self.interrupts, b"".join(struct.pack("<BII", *entry) for entry in self.interrupts)),
            (self.inputs, b"".join(struct.pack("<BIH", *entry[:-1], len(entry[-1])) + entry[-1] for entry in self.inputs)),
            (self.dmas, b"".join(struct.pack("<IH", *entry[:-1], len(entry[-1])) + entry[-1] for entry in self.dmas)),
        ]
        return self.head + b"".join(struct.pack("<I", len(entries)) + data for entries, data in sections)


def no_thread(log):
    log.order[2] = 5  # there is no thread 5


def short(log):
    log.sizes[5] = 2  # one instruction comes before the call


def not_serial(log):
    log.sizes[9] = 0  # a chunk of three instructions comes here


def wrong_input(log):
    log.inputs[0][0] = 17  # the clock's record as one of the device's input


def no_handler(log):
    log.interrupts[0][1] = 1  # after the first commit, where no handler is set yet


def dma_later(log):
    log.dmas[0][0] = 5  # the order has the DMA at 4


def size_of_serial(log):
    log.sizes[1] = 1  # a call comes here


def left_over(log):
    log.inputs.append([5, 0, b""])  # a second record of the clock


CHANGES = [no_thread, short, not_serial, wrong_input, no_handler, dma_later, size_of_serial, left_over]

good = Log(Path("a.log").read_bytes())
assert good.written() == Path("a.log").read_bytes()
for number, change in enumerate(CHANGES, 1):
    log = copy.deepcopy(good)
    change(log)
    Path(f"{number}.log").write_bytes(log.written())
