"""A thread goes on alone: `loop_of(machine, k, standard)` until it is back in a state in which it was, so it waits; `long_loop_of` for
longer; and `next_store(machine, k, standard, words)` until it has stored to one of the words."""

from collections import namedtuple

from . import isa
from .logs import Input
from .machine import NOTHING, READ, WRITE

MOST_STEPS, MORE_STEPS = 50_000, 200_000
MOST_STATES = 10_000  # that are kept

# A thread that goes on alone comes back to its state. before, commits: lists of (size, Input or None), up to the loop and of the
# loop once. accesses: those of the loop. calls: what it asked the kernel there, as Served. changed: the addresses of words that
# have another value at the loop's beginning than now.
Loop = namedtuple("Loop", "before commits accesses calls changed")


class TooLong(Exception):
    """The thread has come to no state again so far."""


class Alone:
    """A thread that goes on alone. Its instructions are cut into commits as a log would have them."""

    def __init__(self, machine, k, standard):
        self.machine, self.k, self.standard = machine, k, standard
        self.commits, self.size, self.changed, self.calls = [], 0, {}, []

    def cut(self):
        if self.size:
            self.commits.append((self.size, None))
            self.machine.threads[self.k].reservation = None
        self.size = 0

    def step(self):
        """One more instruction; False if the thread comes to something that it doesn't come back from, or asks for an answer."""
        done = len(self.machine.accesses)
        if not self.machine.run(self.k, 1):
            self.cut()
            return self.serial()
        self.size += 1
        self.note(done)
        if self.size == self.standard:
            self.cut()
        return True

    def note(self, done):
        """Keeps the words that have another value than at first, with that value."""
        for a in self.machine.accesses[done:]:
            if a.old != a.new and self.changed.setdefault(a.addr & ~3, a.old) == a.new:
                del self.changed[a.addr & ~3]

    def serial(self):
        need = self.machine.need(self.k)
        if need and need.kind not in (READ, WRITE):
            return False
        answer = Input(need.kind, NOTHING, b"") if need else None
        served = self.machine.serve(self.k, answer)
        self.machine.end_commit(self.k)
        self.commits.append((0, answer))
        self.calls.append(served)
        return served.name in ("yield", "self", "ended", "read", "write")

    def state(self):
        t, words = self.machine.threads[self.k], self.machine.words
        return t.pc, tuple(t.x[1:32]), t.masked, tuple((word, words[word >> 2]) for word in sorted(self.changed))


def loop_of(machine, k, standard):
    """The Loop of a live thread, or None if it doesn't come back within 50,000 steps. The machine is left as it was."""
    try:
        return long_loop_of(machine, k, standard, MOST_STEPS)
    except TooLong:
        return None


def long_loop_of(machine, k, standard, most=MORE_STEPS):
    """Likewise, but TooLong after so many steps, so that None means that the thread goes on."""
    mark = machine.mark()
    try:
        return _loop(Alone(machine, k, standard), most)
    finally:
        machine.back(mark)


def _loop(alone, most):
    seen, machine, looks = {}, alone.machine, 0
    for _ in range(most):
        pc = machine.threads[alone.k].pc
        if not alone.step():
            return None
        if machine.threads[alone.k].pc <= pc:
            alone.cut()
            state = alone.state()
            if state in seen:
                return _made(alone, *seen[state])
            looks += 1
            if looks <= MOST_STATES or looks & (looks - 1) == 0:  # of the later ones the 16,384th, the 32,768th and so on
                seen[state] = len(alone.commits), len(machine.accesses), len(alone.calls)
    raise TooLong


def _made(alone, commits, accesses, calls):
    return Loop(alone.commits[:commits], alone.commits[commits:], alone.machine.accesses[accesses:], alone.calls[calls:],
                sorted(alone.changed))


def next_store(machine, k, standard, words):
    """The commits in which a live thread comes to its next store to one of the words, as (size, Input or None); None if it doesn't
    within 50,000 steps, or asks for an answer before. The machine is left as it was."""
    mark, alone = machine.mark(), Alone(machine, k, standard)
    try:
        for _ in range(MOST_STEPS):
            done = len(machine.accesses)
            if not alone.step():
                return None
            if any(a.kind in isa.STORES and a.addr & ~3 in words for a in machine.accesses[done:]):
                alone.cut()
                return alone.commits
        return None
    finally:
        machine.back(mark)
