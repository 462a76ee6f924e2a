"""A thread of a Finding that has run over its stack: `overrun_of(program, run)`, and what is said of it."""

from collections import namedtuple
from itertools import groupby
import tempfile

from .chains import chain_text, places
from .layout import SP, TP
from .own import Own
from .story import thread_name
from .trace import open_trace

LARGEST = 1 << 16  # bytes of a stack that are tried

# function: the thread's, or None. where: text. size: bytes of its stack above the mark. needs: how many it would have needed there.
Overrun = namedtuple("Overrun", "thread function where size needs")


def overrun_of(program, run):
    """The Overrun at the end of a Run, or None. The log is played once more, and compared with its walk."""
    with tempfile.NamedTemporaryFile(prefix="overrun-", suffix=".log") as file:
        file.write(run.log)
        file.flush()
        trace = open_trace(program.image, program.memory, file.name)
    for number, thread in enumerate(trace.machine.threads):
        tp, sp = thread.x[TP], thread.x[SP]
        if thread.live() and program.stacks.is_below(tp, sp):
            needs = tp - program.stacks.block - sp & 0xFFFFFFFF
            return Overrun(number, function_of(trace, program, number), where(trace, number), program.stacks.size(tp), needs)
    return None


def function_of(trace, program, number):
    """The function that the thread was started with, as its block has it."""
    if number == 0:
        return "main"
    block = trace.machine.threads[number].x[TP] - program.stacks.block
    return trace.names.function(trace.machine.words[block + 8 >> 2])


def where(trace, number):
    """The function whose frame is too large, and its callers. One of the library's is told by its name."""
    pc, own = trace.machine.threads[number].pc - 4, Own(trace.image, trace.names)
    found = places(trace, own, number)
    if not own.is_code(pc):
        found.insert(0, trace.names.function(pc) or "%08X" % pc)
    return chain_text(list(without_repeats(found)))


def without_repeats(found):
    """A function that calls itself from one line again and again is told once."""
    for text, same in groupby(found):
        yield text + (", many times" if len(list(same)) > 2 else "")


def overrun_text(over):
    return "%s runs over its stack: %s; it has %s bytes above its mark, and needs %s there" % (
        thread_name(over.thread, over.function), over.where, counted(over.size), counted(over.needs))


def counted(number):
    return "{:,}".format(number)


def larger(program, over):
    """The bytes of the other threads' stacks that are tried next: doubled until this one has what it needs, or the largest."""
    others = program.stacks.others
    size = 2 * others
    while size - others < over.needs - over.size and size < LARGEST:
        size *= 2
    return min(size, LARGEST)
