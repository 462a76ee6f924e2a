"""What gdb's `monitor` says and does: `answer(stub, text)`."""

from lib import isa
from lib.symbols import NoWord
from lib.telling import access_row, commit_line, place, word_name
from lib.machine import NO_PC

HELP = """commit N [I]   go to where commit N begins, or to before its instruction I, from 0 (then: maintenance flush register-cache)
where          the commit, the step that comes next, and the one before
who WORD       the last store to the word before here, and the next one
WORD is a symbol or a hexadecimal address, with +OFFSET or without."""


def answer(stub, text):
    words = text.split()
    command = {"commit": commit, "where": where, "who": who}.get(words[0]) if words else None
    try:
        return command(stub, *words[1:]) if command else HELP
    except NoWord as error:
        return "%s: %s" % error.args
    except TypeError:
        return HELP


def commit(stub, number, instruction="0"):
    line, commits = stub.timeline, stub.timeline.trace.commits
    first, end = line.trace.base, line.trace.base + len(commits)
    if not number.isascii() or not number.isdecimal() or not first <= int(number) <= end:
        return "commit: a number %sup to %d, which is the end" % ("from %d " % first if first else "", end)
    if int(number) == end:
        line.go(line.steps)
        return where(stub)
    wanted = commits[int(number) - first]
    if not instruction.isascii() or not instruction.isdecimal() or int(instruction) >= wanted.last - wanted.first:
        return "commit: it has the instructions 0 to %d" % (wanted.last - wanted.first - 1)
    line.go(wanted.first + int(instruction))
    thread = line.thread_at(line.at)
    if thread is not None:
        stub.told = thread
    return where(stub)


def where(stub):
    line = stub.timeline
    here = line.commit_at(line.at)
    rows = ["the end, after %d commits" % (line.trace.base + len(line.trace.commits))] if here is None else [commit_line(line.trace, here)]
    if here is not None:
        rows.append("next: " + _step(line, line.at))
    if line.at:
        rows.append("before: " + _step(line, line.at - 1))
    return "\n".join(rows)


def _step(line, at):
    """A step in words: `thread 2, instruction 3 of commit 14, work, race.c:22`."""
    commit, pc = line.commit_at(at), line.trace.pcs[at]
    if pc == NO_PC:
        return "the DMA of commit %d" % commit.told
    return "thread %d, instruction %d of commit %d, %s" % (commit.actor, at - commit.first, commit.told, place(line.trace, pc))


def who(stub, text):
    line, trace = stub.timeline, stub.timeline.trace
    word = trace.names.word(text)
    stores = [(commit, a) for commit, a in trace.of_word(word) if a.kind in isa.STORES]
    before = [store for store in stores if store[1].step < line.at]
    after = [store for store in stores if store[1].step >= line.at]
    value = int.from_bytes(line.memory(word, 4), "little")
    rows = ["%s: %08X here" % (word_name(trace, word), value)]
    rows.append("last stored: " + (_store(trace, *before[-1]) if before else _by_none(trace)))
    rows.append("next stored: " + (_store(trace, *after[0]) if after else "by none"))
    return "\n".join(rows)


def _by_none(trace):
    return "before commit %d" % trace.base if trace.base else "by none, it is the image's"


def _store(trace, commit, a):
    """The store in words, with what `monitor commit` goes to it by."""
    return ", ".join(filter(None, access_row(trace, commit, a))) + " (commit %d %d)" % (commit.told, a.step - commit.first)
