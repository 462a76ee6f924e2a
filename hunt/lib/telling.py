"""Commits and accesses as lines of text."""

from . import isa
from .logs import DMA
from .machine import NO_PC
from .trace import context_name

_VERBS = {isa.LOAD: "loads", isa.LR: "reserves", isa.OUT: "kernel loads", isa.DEVICE: "loads", isa.STORE: "stores",
          isa.SC: "sc stores", isa.SC_FAILED: "sc fails", isa.AMO: "amo", isa.SWAP: "swaps", isa.COPY: "kernel stores",
          isa.DMA: "dma stores", isa.CONSOLE: "stores"}


def verb(kind):
    return _VERBS[kind]


def values(a):
    """What an access found or left: `00000007`, or `00000008 over 00000007`."""
    digits = 2 * a.width
    if a.kind not in isa.STORES:
        return "%0*X" % (digits, a.value & (1 << 4 * digits) - 1)
    shift, bits = 8 * (a.addr & 3), (1 << 8 * a.width) - 1
    return "%0*X over %0*X" % (digits, a.new >> shift & bits, digits, a.old >> shift & bits)


def place(trace, pc):
    return "" if pc == NO_PC else trace.names.place(pc)


def lane_name(lane):
    thread, is_interrupt = lane
    return "dma" if thread == DMA else "thread %d%s" % (thread, ", interrupts" if is_interrupt else "")


def word_name(trace, word):
    name, number = trace.names.name(word), "%08X" % word
    return name if name == number else "%s (%s)" % (name, number)


def columns(rows):
    """Rows of texts as lines, with each column as wide as it must be."""
    widths = [max(map(len, column)) for column in zip(*rows)] if rows else []
    return ["  ".join(text.ljust(width) for text, width in zip(row, widths)).rstrip() for row in rows]


def answer_line(line):
    """A line of `watch`, `who` or `when` in words; any other line as it is."""
    words = line.split(" ")
    if words[0] == "w" and len(words) == 4:
        who = "dma" if int(words[2]) == DMA else "thread %s" % words[2]
        return "commit %s  %s  leaves %s" % (words[1], who, words[3])
    if words[0] == "start":
        return "as it was at first"
    if words[0] == "diverged":
        return "the log leaves the program at commit %s: this is of the commits before" % words[1]
    return line


def access_row(trace, commit, a, note=""):
    return ("commit %d" % commit.told, context_name(trace.context(commit)), verb(a.kind), values(a), place(trace, a.pc), note)


def folded_rows(trace, pairs):
    """A row for each (Commit, Access); equal loads in a row at one place are one row, with how many they are."""
    rows, runs = [], []  # runs: of each row how many there are, and the first and the last commit
    for commit, a in pairs:
        row = access_row(trace, commit, a)
        if rows and a.kind not in isa.STORES and row[1:] == rows[-1][1:]:
            runs[-1] = runs[-1][0] + 1, runs[-1][1], commit.told
        else:
            rows.append(row)
            runs.append((1, commit.told, commit.told))
    return [(*row[:-1], times(*run)) for row, run in zip(rows, runs)]


def times(count, first, last):
    """For example `40 times, up to commit 416`; nothing for once."""
    up_to = ", up to commit %d" % last if last != first else ""
    return "%d times%s" % (count, up_to) if count > 1 else ""


def what_served(commit):
    """A serial step in words, for example `read(9, 400, 8) answers 8`."""
    served = commit.served
    if served.name == "iret" and commit.before.masked:
        return "iret()"
    if served.name == "exit":
        return "exit(%X)" % served.arguments[0]
    if served.name in ("fault", "break"):
        return "faults, cause %d" % served.result
    text = "%s(%s)" % (served.name, ", ".join("%X" % v for v in served.arguments[: _ARGUMENTS.get(served.name, 3)]))
    return text if served.name == "device store" else text + " answers %X" % served.result


_ARGUMENTS = {"random": 2, "clock": 0, "handler": 1, "iret": 0, "dma": 2, "self": 0, "yield": 0, "ended": 1}


def commit_line(trace, commit):
    """For example `commit 14: thread 2, 15 instructions, work, race.c:20 to work, race.c:24`."""
    head = "commit %d: %s" % (commit.told, context_name(trace.context(commit)))
    if commit.served:
        return "%s, %s, %s" % (head, what_served(commit), place(trace, trace.pcs[commit.first]))
    if commit.actor == DMA:
        return head
    first, last = place(trace, trace.pcs[commit.first]), place(trace, trace.pcs[commit.last - 1])
    between = first if first == last else "%s to %s" % (first, last)
    return "%s, %d instruction%s, %s" % (head, commit.size, "" if commit.size == 1 else "s", between)
