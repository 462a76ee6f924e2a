"""Logs as texts: `packed(text)` is the inverse of `delorean inspect`, and `inspected(log)` is its text.

A text that isn't one of a log is refused by its first wrong line, counted from 1: BadText(line, why). With `edited=True` the
lines count in the order in which they are: the numbers of the p lines and the header's number of commits aren't looked at,
and empty lines and lines that begin with # are passed over.
"""

import re

from .logs import DMA, KINDS, MODE_NAMES, MOST_COMMITS, ORDER_SIZE, PICOLOG, Input, Log

MOST_BYTES = 4096
WORD = 0xFFFFFFFF
NUMBER = re.compile("0|[1-9][0-9]{0,9}")
VALUE = re.compile("[0-9A-F]{8}")
BYTES = re.compile("-|(?:[0-9A-F]{2})+")


class BadText(Exception):
    """args: the line, from 1, and why it is wrong."""

    def __str__(self):
        return "line %d: %s" % self.args


class WrongLine(Exception):
    """Why a line is wrong; whoever counts the lines adds its number."""


def require(holds, why):
    if not holds:
        raise WrongLine(why)


def number(word, name, least, most):
    require(NUMBER.fullmatch(word), "%s isn't a decimal number" % name)
    require(least <= int(word) <= most, "%s isn't from %d to %d" % (name, least, most))
    return int(word)


def value(word, name):
    require(VALUE.fullmatch(word), "%s isn't eight hexadecimal digits" % name)
    return int(word, 16)


def some_bytes(word):
    require(BYTES.fullmatch(word), "the bytes aren't pairs of hexadecimal digits, or -")
    data = b"" if word == "-" else bytes.fromhex(word)
    require(len(data) <= MOST_BYTES, "there are more than %d bytes" % MOST_BYTES)
    return data


def words_of(line, count):
    words = line.split(" ")
    require(len(words) == count, "it has %d words and not %d" % (len(words), count))
    return words


class Reader:
    """Takes a text line by line: the header, in version 2 `threads`, then the sections p, z, i, n, d in this order."""

    SECTIONS = "pzind"

    def __init__(self, edited):
        self.edited, self.section, self.take = edited, 0, self.header
        self.order, self.sizes, self.interrupts, self.inputs, self.dmas = [], [], {}, [], []
        self.last = {}

    def header(self, line):
        words = words_of(line, 5)
        require(words[0] == "log", "the first line doesn't begin with `log`")
        self.version, self.threads = number(words[1], "the version", 1, 2), 15
        require(words[2] in MODE_NAMES, "there is no such mode")
        self.mode = MODE_NAMES.index(words[2])
        self.s = number(words[3], "the standard size", 16, 4096 if self.version == 1 else 65536)
        self.count = number(words[4], "the number of commits", 0, MOST_COMMITS)
        if self.mode != ORDER_SIZE:
            self.sizes = {}
        self.take = self.entry if self.version == 1 else self.threads_line

    def threads_line(self, line):
        require(line in ("threads 15", "threads 63"), "it isn't `threads 15` or `threads 63`")
        self.threads = int(line.split(" ")[1])
        self.take = self.entry

    def entry(self, line):
        word = line.split(" ", 1)[0]
        require(len(word) == 1 and word in self.SECTIONS, "it doesn't begin with p, z, i, n or d")
        section = self.SECTIONS.index(word)
        require(section >= self.section, "a line %s comes after a line %s" % (word, self.SECTIONS[self.section]))
        self.section = section
        getattr(self, word)(line)

    def thread(self, word):
        return number(word, "the thread", 0, self.threads - 1)

    def actor(self, word):
        return DMA if word == str(DMA) else number(word, "the actor", 0, self.threads - 1)

    def rising(self, section, key):
        require(key > self.last.get(section, (-1,)), "it doesn't come after the line before it")
        self.last[section] = key
        return key

    def p(self, line):
        _, position, actor, size = words_of(line, 4)
        require(self.mode != PICOLOG, "a picolog has no order")
        place = len(self.order)
        require(self.edited or position == str(place), "the commit's number isn't %d" % place)
        require(place < (MOST_COMMITS if self.edited else self.count), "there are more commits than the header says")
        actor = self.actor(actor)
        if self.mode == ORDER_SIZE:
            self.sizes.append(number(size, "the size", 0, self.s))
        else:
            require(size == "-", "in order-only the size is -")
        self.order.append(actor)

    def z(self, line):
        _, thread, index, size = words_of(line, 4)
        require(self.mode != ORDER_SIZE, "in order-size the p lines have the sizes")
        key, size = (self.thread(thread), number(index, "the index", 0, WORD)), number(size, "the size", 1, self.s)
        self.sizes[self.rising("z", key)] = size

    def i(self, line):
        _, thread, index, what = words_of(line, 4)
        key, what = (self.thread(thread), number(index, "the index", 0, WORD)), value(what, "the value")
        self.interrupts[self.rising("i", key)] = what

    def n(self, line):
        _, kind, result, data = words_of(line, 4)
        require(kind in map(str, KINDS), "the kind is none of 2, 3, 4, 5, 16 and 17")
        self.inputs.append(Input(int(kind), value(result, "the result"), some_bytes(data)))

    def d(self, line):
        _, position, data = words_of(line, 3)
        position, data = number(position, "the position", 0, WORD), some_bytes(data)
        self.dmas.append((self.rising("d", (position,))[0], data))

    def log(self):
        require(self.take == self.entry, "the text ends before its first entries")
        if self.mode != PICOLOG:
            self.count = len(self.order) if self.edited else self.count
            ends = "the text ends after %d commits, and the header says %d" % (len(self.order), self.count)
            require(len(self.order) == self.count, ends)
        return Log(self.version, self.threads, self.mode, self.s, self.count, self.order, self.sizes, self.interrupts,
                   self.inputs, self.dmas)


def packed(text, edited=False):
    """The log that a text tells; BadText where it tells none."""
    reader, lines = Reader(edited), text.split("\n")
    place = 0
    try:
        for place, line in enumerate(lines[:-1], 1):
            if not (edited and (not line.strip() or line.startswith("#"))):
                reader.take(line)
        place = len(lines)
        require(lines[-1] == "", "the last line doesn't end with a line feed")
        return reader.log()
    except WrongLine as wrong:
        raise BadText(place, str(wrong)) from None


def inspected(log):
    """The log's text."""
    lines = ["log %d %s %d %d" % (log.version, MODE_NAMES[log.mode], log.s, log.count)]
    if log.version == 2:
        lines.append("threads %d" % log.threads)
    for place, actor in enumerate(log.order):
        size = log.sizes[place] if log.mode == ORDER_SIZE else "-"
        lines.append("p %d %d %s" % (place, actor, size))
    if log.mode != ORDER_SIZE:
        lines += ["z %d %d %d" % (*key, size) for key, size in log.sizes.items()]
    lines += ["i %d %d %08X" % (*key, what) for key, what in log.interrupts.items()]
    lines += ["n %d %08X %s" % (kind, result, data.hex().upper() or "-") for kind, result, data in log.inputs]
    lines += ["d %d %s" % (commit, data.hex().upper() or "-") for commit, data in log.dmas]
    return "".join(line + "\n" for line in lines)
