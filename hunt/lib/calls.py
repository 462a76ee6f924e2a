"""The program's calls of its library, as a Trace shows them: `calls_of(trace, own)`. A call begins with the first instruction of
a function of the library, right after one of the program's own code in the same thread, and ends when that code goes on. Where the
library calls malloc and its like for the program, as in strdup, that is a call too."""

from collections import namedtuple

from .isa import M
from .trace import Moment

# who: the Context. name: the function. arguments: a0 to a3. at: the pc of the program's own code. result: a0 at the end, or None.
# first, last: steps.
Call = namedtuple("Call", "who name arguments at result first last")
# A block of the heap. where: the pc that asked for it. count: how many that pc has asked for by then. freed: the Call, or None.
Block = namedtuple("Block", "addr size where count freed")

HEAD, LEAST_GUARD, MOST_GUARD = 8, 4, 16  # bytes, as heap.c has them
RA, A0 = 1, 10  # registers
GIVING, TAKING_BACK = ("malloc", "calloc", "realloc"), ("free", "realloc")


def block_size(call):
    """The bytes that a call asks the heap for."""
    a0, a1 = call.arguments[:2]
    return a0 * a1 & M if call.name == "calloc" else a1 if call.name == "realloc" else a0


class _Finder:
    def __init__(self, trace, own):
        self.trace, self.own, self.moment = trace, own, Moment(trace)
        public_last = sorted(trace.names.code, key=lambda s: not s.name.startswith("_"))
        self.entries = {s.addr: s.name for s in public_last if s.addr >= own.library}
        self.heap_entries = {addr for addr, name in self.entries.items() if name in GIVING + TAKING_BACK}
        self.open, self.last_own, self.done = {}, {}, []
        self.inner = {}  # the library's own call of the heap's functions, and where that goes on

    def registers(self, step, thread):
        commit, moment = self.trace.commit_of(step), self.moment
        if moment.commit is not commit or moment.step > step:
            moment.seek(commit.first)
        if moment.step < step:
            moment.advance(step)
        return tuple(moment.machine.threads[thread].x)

    def look(self, step, who, thread):
        pc = self.trace.pcs[step]
        if who in self.inner and pc == self.inner[who][1]:
            self.done.append(self.inner.pop(who)[0]._replace(result=self.registers(step, thread)[A0], last=step))
        if self.own.is_code(pc):
            if who in self.open:
                self.close(who, step, self.registers(step, thread)[A0])
            self.last_own[who] = pc
        elif who in self.last_own:
            at = self.last_own.pop(who)
            if pc in self.entries:
                self.open[who] = self.begun(pc, step, who, thread, at)
        elif pc in self.heap_entries and who not in self.inner and not self.is_in_heap(who):
            back = self.registers(step, thread)[RA]
            self.inner[who] = self.begun(pc, step, who, thread, self.open[who].at if who in self.open else back - 4), back

    def begun(self, pc, step, who, thread, at):
        return Call(who, self.entries[pc], self.registers(step, thread)[A0 : A0 + 4], at, None, step, None)

    def is_in_heap(self, who):
        return who in self.open and self.open[who].name in GIVING + TAKING_BACK

    def close(self, who, step, result):
        self.done.append(self.open.pop(who)._replace(result=result, last=step))

    def all(self):
        for commit in self.trace.commits:
            who = self.trace.context(commit)
            for step in range(commit.first, commit.last):
                if commit.before is not None:
                    self.look(step, who, commit.actor)
        for who in list(self.open):
            self.close(who, self.trace.steps, None)
        return sorted(self.done, key=lambda call: call.first)


def calls_of(trace, own):
    """All calls, in the order of their beginnings."""
    return _Finder(trace, own).all() if own.has_library else []


def guard_of(block):
    """(first, end) of the bytes after a block that the library fills, and looks at later."""
    first, room = block.addr + block.size, 16
    while room < block.size + HEAD + LEAST_GUARD:
        room = room * 2 if room < 2048 else room + 1024
    return first, min(first + MOST_GUARD, block.addr - HEAD + room)


class Heap:
    """The blocks that calls gave and took back: `look(call)` in the order of the calls' ends, then `block(addr)`."""

    def __init__(self):
        self.blocks, self.counts = [], {}

    def copy(self):
        other = Heap()
        other.blocks, other.counts = list(self.blocks), dict(self.counts)
        return other

    def look(self, call):
        if call.name in TAKING_BACK and call.arguments[0]:  # which is in the middle of the block if aligned_alloc has given it
            self.blocks = [b._replace(freed=call) if b.freed is None and b.addr <= call.arguments[0] < b.addr + max(b.size, 4) else b
                           for b in self.blocks]
        if call.name in GIVING and call.result:
            count = self.counts[call.at] = self.counts.get(call.at, 0) + 1
            self.blocks = [b for b in self.blocks if b.addr != call.result]
            self.blocks.append(Block(call.result, block_size(call), call.at, count, None))

    def block(self, addr):
        """The block that an address is in, or None."""
        return next((b for b in self.blocks if b.addr <= addr < b.addr + max(b.size, 4)), None)

    def before(self, addr):
        """The block that isn't freed and right after whose end an address is, or None."""
        return next((b for b in self.blocks if b.freed is None and guard_of(b)[0] <= addr < guard_of(b)[1]), None)
