"""Pairs of accesses to a word by different threads, at least one of them a store, which nothing orders: `Races(trace).found()`.

The order is that of clocks.py. An access is kept as an epoch, which is its thread and how far that was (FastTrack: Flanagan and
Freund, PLDI 2009). What is kept is of each thread the last load and the last store of each word. Two atomic accesses are no race. An access is
atomic if its instruction is (AMO, LR, SC), if a fence is beside it, or if its word counts as atomic: some instruction uses it
atomically, or it was named.
"""

from collections import namedtuple

from . import isa
from .clocks import Clocks, is_acquire_fence, is_fence, is_release_fence
from .logs import DMA

# first, second: (Commit, Access). count: how many pairs are at the same two pcs.
Race = namedtuple("Race", "word first second count")

_ATOMIC = frozenset((isa.LR, isa.SC, isa.SC_FAILED, isa.AMO, isa.SWAP))
_ACCESSES = isa.LOADS | isa.STORES


class Races:
    def __init__(self, trace, atomic=()):
        """atomic: addresses of words."""
        self.trace, self.clocks = trace, Clocks(trace)
        self.atomic = frozenset(word & ~3 for word in atomic) | self._atomic_words()
        self.split = {a.addr & ~3 for a in trace.accesses if a.width < 4}
        self.last, self.pairs = {}, {}  # last: cell -> {(thread, is a store, is atomic): (count, commit, access)}

    def _atomic_words(self):
        """Words that an instruction uses atomically, and that say how many bytes of a DMA came."""
        words = {a.addr & ~3 for a in self.trace.accesses if a.kind in _ATOMIC}
        firsts = (self.trace.accesses_of(commit)[:1] for commit in self.trace.commits if commit.actor == DMA)
        return words | {a.addr & ~3 for accesses in firsts for a in accesses}

    def found(self):
        """The races, in the order of words."""
        for commit in self.trace.commits:
            self.clocks.begin(commit)
            self.chunk(commit) if not commit.served and commit.actor != DMA else self.kernel(commit)
            self.clocks.end(commit)
        return sorted((Race(key[0], *pair) for key, pair in self.pairs.items()), key=lambda r: (r.word, r.second[1].step))

    def kernel(self, commit):
        for a in self.trace.accesses_of(commit):
            self.access(commit, a, 0)

    def chunk(self, commit):
        accesses = {a.step: a for a in self.trace.accesses_of(commit)}
        for step in range(commit.first, commit.last):
            pc = self.trace.pcs[step]
            word = self.trace.value_before(pc, step)
            if is_fence(word):
                self.clocks.fence(commit.actor, word)
            elif step in accesses:
                self.access(commit, accesses[step], word)

    def access(self, commit, a, word):
        k = self.clocks.index(commit)
        self.clocks.before(k, a, word)
        if a.kind in _ACCESSES:
            is_atomic = self.is_atomic(a)
            for cell in self.cells(a):
                self.compare(cell, k, is_atomic, commit, a)
        self.clocks.after(k, a, word)

    def cells(self, a):
        """The bytes, or the whole word if the run has no smaller access to it."""
        return range(a.addr, a.addr + a.width) if a.addr & ~3 in self.split else (a.addr & ~3,)

    def is_atomic(self, a):
        if a.kind in _ATOMIC or a.addr & ~3 in self.atomic:
            return True
        if a.kind == isa.LOAD:
            return is_acquire_fence(self.trace.value_before(a.pc + 4, a.step))
        return a.kind == isa.STORE and a.pc >= 4 and is_release_fence(self.trace.value_before(a.pc - 4, a.step))

    def compare(self, cell, k, is_atomic, commit, a):
        now, last = self.clocks.now[k], self.last.setdefault(cell, {})
        is_store = a.kind in isa.STORES
        for (thread, was_store, was_atomic), (count, *first) in last.items():
            is_ordered = thread == k or now[thread] >= count
            if (is_store or was_store) and not is_ordered and not (is_atomic and was_atomic):
                self.note(tuple(first), (commit, a))
        last[k, is_store, is_atomic] = now[k], commit, a

    def note(self, first, second):
        key = second[1].addr & ~3, first[1].pc, second[1].pc, first[1].kind, second[1].kind
        if key in self.pairs:
            self.pairs[key] = (*self.pairs[key][:2], self.pairs[key][2] + 1)
        else:
            self.pairs[key] = first, second, 1
