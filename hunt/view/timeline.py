"""A trace as a line of steps, with a place that is always before a step: `Timeline(trace)`. Where a break or watch point stops,
forwards or backwards, is looked up in the trace; nothing is run for it."""

from bisect import bisect_left
from collections import namedtuple

from lib import isa
from lib.logs import DMA
from lib.trace import Moment

BREAK, WRITE, READ, ACCESS = "break", "watch", "rwatch", "awatch"
STEP, BEGIN, END = "step", "begin", "end"

# A break point (length 0) or a watch point.
Point = namedtuple("Point", "kind addr length")
# Where one comes to. thread: the one that is told of; None if it is all the same. addr: the byte of a watch point.
Stop = namedtuple("Stop", "reason at thread addr", defaults=(None,))

# Of several reasons at one place the first of these is told; the others are there when one goes on.
_RANK = {STEP: 0, BREAK: 1, WRITE: 2, READ: 2, ACCESS: 2, BEGIN: 3, END: 3}


class Timeline:
    def __init__(self, trace):
        self.trace, self.moment, self.at = trace, Moment(trace), 0
        self.steps, self.threads = trace.steps, len(trace.machine.threads)
        self._commits_of = [[] for _ in range(self.threads)]  # of each thread its commits
        for commit in trace.commits:
            if commit.actor != DMA:
                self._commits_of[commit.actor].append(commit)
        self._firsts_of = [[c.first for c in commits] for commits in self._commits_of]
        self._known = {}

    def go(self, at):
        self.at = max(0, min(at, self.steps))

    # ------------------------------------------------------------ as it was here

    def registers(self, k):
        """x0 to x31 and the pc of thread k, or None where it hasn't started yet."""
        self._seek()
        threads = self.moment.machine.threads
        return threads[k].x[:32] + [threads[k].pc] if k < len(threads) else None

    def status(self, k):
        """`live`, `ended` or `fault` with its number, or None where it hasn't started yet."""
        self._seek()
        threads = self.moment.machine.threads
        return threads[k].status if k < len(threads) else None

    def memory(self, addr, length):
        """As many of these bytes as are in the memory."""
        self._seek()
        return bytes(self.moment.machine.memory[addr : addr + length])

    def _seek(self):
        if self.moment.step != self.at:
            self.moment.seek(self.at)

    # ------------------------------------------------------------ whose steps these are

    def commit_at(self, at):
        """The commit of a step; None at the end."""
        return self.trace.commit_of(at) if at < self.steps else None

    def thread_at(self, at):
        """The thread that does a step; None for a DMA and at the end."""
        commit = self.commit_at(at)
        return None if commit is None or commit.actor == DMA else commit.actor

    def next_of(self, k, at):
        """The first step of thread k from here on, or None."""
        commits, j = self._commits_of[k], bisect_left(self._firsts_of[k], at)
        if j and at < commits[j - 1].last:
            return at
        return commits[j].first if j < len(commits) else None

    def last_of(self, k, at):
        """The last step of thread k before here, or None."""
        commits, j = self._commits_of[k], bisect_left(self._firsts_of[k], at)
        return min(commits[j - 1].last, at) - 1 if j else None

    # ------------------------------------------------------------ points

    def events(self, point):
        """The steps at which a point stops, rising, and of each the byte (of a watch point)."""
        if point not in self._known:
            found = self._breaks(point.addr) if point.kind == BREAK else self._watched(point)
            self._known[point] = [step for step, _ in found], [addr for _, addr in found]
        return self._known[point]

    def _breaks(self, pc):
        pcs, found, at = self.trace.pcs, [], 0
        while True:
            try:
                at = pcs.index(pc, at)
            except ValueError:
                return found
            found.append((at, None))
            at += 1

    def _watched(self, point):
        trace, found, end = self.trace, {}, point.addr + point.length
        for word in range(point.addr & ~3, end, 4):
            for a in map(trace.accesses.__getitem__, trace.words.get(word, ())):
                low, high = max(a.addr, point.addr), min(a.addr + a.width, end)
                if low < high and _stops(point.kind, a, word, low, high):
                    found.setdefault(a.step, low)
        return sorted(found.items())

    # ------------------------------------------------------------ onwards and back

    def forward(self, points, stepped=None, told=None):
        """Where one comes to going on: at the next break point, before the next watched access, or after the next step of
        the thread `stepped`. A break point right here counts unless it is that of the thread `told`. gdb for RISC-V has a watch
        point stop before the access, steps once, and then says what has changed."""
        at, stops = self.at, [self._end()]
        for point in points:
            steps, addrs = self.events(point)
            if point.kind == BREAK:
                j = bisect_left(steps, at + (self.thread_at(at) == told))
                if j < len(steps):
                    stops.append(Stop(BREAK, steps[j], self.thread_at(steps[j])))
            else:
                j = bisect_left(steps, at)
                if j < len(steps):
                    stops.append(Stop(point.kind, steps[j], self.thread_at(steps[j]), addrs[j]))
        step = None if stepped is None else self.next_of(stepped, at)
        if step is not None:
            stops.append(Stop(STEP, step + 1, stepped))
        return min(stops, key=lambda stop: (stop.at, _RANK[stop.reason]))

    def backward(self, points, stepped=None):
        """Where one comes to going back: before the last step that a break point is at, after the last watched access
        (which gdb then steps back over), or before the last step of the thread `stepped`."""
        at, stops = self.at, [Stop(BEGIN, 0, self.thread_at(0))]
        for point in points:
            steps, addrs = self.events(point)
            j = bisect_left(steps, at) - 1
            if j >= 0:
                after = 0 if point.kind == BREAK else 1
                stops.append(Stop(point.kind, steps[j] + after, self.thread_at(steps[j]), addrs[j]))
        step = None if stepped is None else self.last_of(stepped, at)
        if step is not None:
            stops.append(Stop(STEP, step, stepped))
        return max(stops, key=lambda stop: (stop.at, -_RANK[stop.reason]))

    def _end(self):
        last = next((c.actor for c in reversed(self.trace.commits) if c.actor != DMA), None)
        return Stop(END, self.steps, last)


def _stops(kind, a, word, low, high):
    """Whether an access to these bytes is one that a watch point of this kind stops at."""
    is_load, is_store = a.kind in isa.LOADS, a.kind in isa.STORES
    if kind == READ:
        return is_load
    if kind == ACCESS:
        return is_load or is_store
    bits = (1 << 8 * (high - low)) - 1 << 8 * (low - word)
    return is_store and (a.old ^ a.new) & bits != 0
