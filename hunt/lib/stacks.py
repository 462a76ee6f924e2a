"""Stacks that were run over: `overruns(trace)`, and `stack_lines(trace)` in words.

In an image of delorean-cc stacks have known ends. In any other one a stack pointer is followed through the instructions that add to
it. It mustn't come below the beginning of the symbol that the stack is in, below the end of a symbol that is lower, or below where
the stack of another thread ends that is lower.
"""

from collections import namedtuple

from .isa import extend
from .layout import SP, TP, is_below, stacks_of
from .logs import DMA
from .telling import place
from .trace import Moment

# A thread's stack pointer is below its stack, from this step on. begin: the stack's own first address. whose: the thread whose stack
# is there, or None. lowest: the lowest that the stack pointer came to.
Overrun = namedtuple("Overrun", "thread step begin whose lowest")


_NO_REGISTER = frozenset((0x63, 0x23, 0x0F, 0x73))  # opcodes of branches, stores, fences and calls


def _is_addition(word):
    """addi sp, sp, .."""
    return word & 0xFFFFF == SP << 15 | SP << 7 | 0x13


def _sets(word):
    return word >> 7 & 31 == SP and word & 0x7F not in _NO_REGISTER


def _pointers(trace, commit, moment):
    """(step, sp) at the beginning of a chunk, and after each addition to it. After another instruction that sets it, a Moment tells it;
    without one it isn't known for the rest of the chunk."""
    sp = commit.before.x[SP]
    yield commit.first, sp
    for step in range(commit.first, commit.last):
        word = trace.value_before(trace.pcs[step], step)
        if _is_addition(word):
            sp = sp + extend(word >> 20, 12) & 0xFFFFFFFF
            yield step, sp
        elif _sets(word) and moment is None:
            return
        elif _sets(word):
            moment.seek(commit.first)
            moment.advance(step + 1)
            sp = moment.machine.threads[commit.actor].x[SP]
            yield step, sp


def _tops(trace):
    """Of each thread the stack pointer with which it began; of thread 0 the first one that it had."""
    tops = {}
    for commit in trace.commits:
        served = commit.served
        if served and served.name == "spawn" and served.result < trace.log.threads and served.arguments[1]:
            tops[served.result] = served.arguments[1]
        if commit.actor == 0 and commit.before.x[SP]:
            tops.setdefault(0, commit.before.x[SP])
    return tops


def _begin(trace, tops, k):
    """The least address that can be of a thread's stack, and the thread whose stack is below it, or None."""
    top, others = tops[k], [(other, j) for j, other in tops.items() if other < tops[k]]
    symbols = [s.addr if top <= s.addr + s.size else s.addr + s.size for s in trace.names.data if s.addr < top]
    begin, whose = max(others, default=(0, None))
    by_symbol = max(symbols, default=0)
    return (begin, whose) if begin >= by_symbol else (by_symbol, whose)


def _known_tops(trace, stacks):
    tops = _tops(trace)
    for commit in trace.commits:
        if commit.actor != DMA and commit.before.x[TP]:
            tops[commit.actor] = commit.before.x[TP] - stacks.block
    return {0: stacks.first_tp - stacks.block} | tops


def _known_begins(trace, stacks):
    tops = _known_tops(trace, stacks)
    return {k: (stacks.begin(top + stacks.block), _begin(trace, tops, k)[1]) for k, top in tops.items()}


def _begins(trace):
    tops = _tops(trace)
    return {k: _begin(trace, tops, k) for k in tops}


def overruns(trace):
    """An Overrun for each thread whose stack was run over, in the order of the threads."""
    stacks, found = stacks_of(trace.names), {}
    begins = _known_begins(trace, stacks) if stacks else _begins(trace)
    moment = Moment(trace) if stacks else None
    for commit in trace.commits:
        k = commit.actor
        if k == DMA or commit.served or k not in begins:
            continue
        for step, sp in _pointers(trace, commit, moment):
            if sp and (is_below(begins[k][0], sp) if stacks else sp < begins[k][0]):
                first = found.get(k)
                found[k] = first._replace(lowest=min(first.lowest, sp)) if first else Overrun(k, step, *begins[k], sp)
    return [found[k] for k in sorted(found)]


def stack_lines(trace):
    """A line for each stack that was run over."""
    for over in overruns(trace):
        commit, pc = trace.commit_of(over.step), trace.pcs[over.step]
        where = "" if over.whose is None else ", into that of thread %d" % over.whose
        yield "the stack of thread %d is run over: its sp comes down to %08X, and it begins at %08X%s (first in commit %d, %s)" % (
            over.thread, over.lowest, over.begin, where, commit.told, place(trace, pc))
