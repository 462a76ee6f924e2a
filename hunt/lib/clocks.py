"""What is ordered in a run: `Clocks(trace)` goes through its steps and keeps a vector clock for each thread.

A vector clock has, of each thread, how far it is known to have come (Mattern, 1989). Order comes from a thread's own program, from
spawn and end, from atomic instructions with aq and rl, from fences, from bytes that go through a pipe, and from a DMA: these are the
edges of synchronises-with in C11, as compilers write them in RV32IMA. It doesn't come from the order of commits.
"""

from . import isa
from .logs import DMA
from .machine import REFUSED

R, W = 2, 1  # bits of a fence's predecessors and successors
AQ, RL = 1 << 26, 1 << 25


def is_fence(word):
    return word & 0x707F == 0x0F


def is_release_fence(word):
    return is_fence(word) and word >> 24 & (R | W) == R | W and bool(word >> 20 & W)


def is_acquire_fence(word):
    return is_fence(word) and bool(word >> 24 & R) and word >> 20 & (R | W) == R | W


def join(clock, other):
    """Makes the clock know all that the other one knows."""
    for thread, count in enumerate(other):
        if count > clock[thread]:
            clock[thread] = count


class Clocks:
    """now: of each thread its clock; the last one is the DMA's. released: of each word what its last store passes on. device: the
    same of the words by which a DMA says how many bytes came."""

    def __init__(self, trace):
        self.trace, self.count = trace, len(trace.machine.threads) + 1
        self.now = [[int(k == j) for j in range(self.count)] for k in range(self.count)]
        self.fenced = [self.nothing() for _ in range(self.count)]  # what a thread knew at its last release fence
        self.seen = [self.nothing() for _ in range(self.count)]    # what its loads would give it, after an acquire fence
        self.released, self.piped, self.requested, self.device = {}, {}, None, {}

    def nothing(self):
        return [0] * self.count

    def index(self, commit):
        """Which clock a commit's actor has."""
        return self.count - 1 if commit.actor == DMA else commit.actor

    def tick(self, k):
        self.now[k][k] += 1

    # ------------------------------------------------------------ serial steps

    def begin(self, commit):
        """What comes before the accesses of a commit."""
        k, served = self.index(commit), commit.served
        if commit.actor == DMA:
            join(self.now[k], self.requested or self.nothing())
        elif served and served.name == "read":
            join(self.now[k], self.piped.get(served.arguments[0], self.nothing()) if served.record and served.record.bytes else
                 self.nothing())
        elif served and served.name == "ended" and served.result == 1:
            join(self.now[k], self.now[served.arguments[0]])

    def end(self, commit):
        """What comes after them."""
        k, served = self.index(commit), commit.served
        if commit.actor == DMA:
            self.device[self.trace.accesses_of(commit)[0].addr & ~3] = list(self.now[k])
            self.tick(k)
        if not served:
            return
        if served.name == "spawn" and served.result != REFUSED:
            join(self.now[served.result], self.now[k])
        elif served.name == "write" and served.output and served.output[1]:
            join(self.piped.setdefault(served.arguments[0], self.nothing()), self.now[k])
        elif served.name == "dma" and served.result == 0:
            self.requested = list(self.now[k])
        else:
            return
        self.tick(k)

    # ------------------------------------------------------------ fences and accesses

    def fence(self, k, word):
        if is_acquire_fence(word):
            join(self.now[k], self.seen[k])
        if is_release_fence(word):
            self.fenced[k] = list(self.now[k])
            self.tick(k)

    def before(self, k, access, word):
        """What a load learns. An SC learns what its LR has found. `word`: the instruction."""
        addr = access.addr & ~3
        if addr in self.released and (self.trace.is_look(access) or access.kind == isa.SC):
            join(self.seen[k], self.released[addr])
            if access.kind in _ATOMIC and word & AQ:
                join(self.now[k], self.released[addr])
        if addr in self.device and self.trace.is_look(access):
            join(self.now[k], self.device[addr])

    def after(self, k, access, word):
        """What a store passes on."""
        if access.kind not in isa.STORES:
            return
        addr, passed = access.addr & ~3, list(self.fenced[k])
        is_release = access.kind in _ATOMIC and word & RL
        if is_release:
            join(passed, self.now[k])
        if access.kind in _ATOMIC and not self.trace.is_blind(access) and addr in self.released:
            join(passed, self.released[addr])  # an exchange passes on what it found, too
        self.released[addr] = passed
        if is_release:
            self.tick(k)


_ATOMIC = frozenset((isa.LR, isa.SC, isa.AMO, isa.SWAP))
