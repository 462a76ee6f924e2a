"""A thread's steps once more, as if one of its loads had found another value: `Otherwise(trace, shared, load, value, since).use()`.

Two copies of the thread go through its steps of the trace side by side. At the load one of them finds what the thread found,
and the other one the value. The first thing that they do differently, and that others can notice, is the use of the load.
"""

from collections import namedtuple

from . import isa
from .words import bits_of

MOST_STEPS = 5_000  # of the thread after the load

# What a thread did because a load found what it did. commit, access: a store, or a call or a fault (access None), or nothing more
# until the log's end (both None). instead: where a branch would have gone; None if only a stored value, its address or an argument
# would be another.
Use = namedtuple("Use", "commit access instead")

_SILENT = frozenset(("yield", "self", "ended", "clock", "iret", "handler"))  # calls that other threads can't notice
_ARGUMENTS = (17, 10, 11, 12)


class _Copy:
    """Registers, and memory as the present step finds it; instructions take it for a machine."""

    def __init__(self, size, x):
        self.x, self.size, self.pcs, self.words, self.reserved = list(x), size, (), self, None
        self.own, self.finds, self.stored = {}, None, None

    def note(self, access):
        pass

    def __getitem__(self, index):
        return self.own[index] if index in self.own else self.finds(index)

    def __setitem__(self, index, value):
        self.stored = index, value

    def step(self, operation, pc, finds, reserved):
        self.finds, self.reserved, self.stored = finds, reserved, None
        return operation(self.x, pc, self)


class Otherwise:
    """load: (Commit, Access). value: the word that it might have found. since: the step after which a use counts. shared: the
    addresses of words that others may see. is_late: its commit's other loads, and those up to that step, find what was there by then,
    too. has_turned: once it is over, whether the copies have parted at a branch."""

    def __init__(self, trace, shared, load, value, since, is_late=False):
        self.trace, self.shared, self.value, self.since = trace, shared, value, since
        self.commit, self.load = load
        self.word, self.context = self.load.addr & ~3, trace.context(self.commit)
        self.mine, self.other = (_Copy(trace.image.size, self.commit.before.x) for _ in range(2))
        self.has_checked, self.has_turned, self.is_over, self.steps = False, False, False, 0
        self.is_late, self.own_stores = is_late, set()

    def use(self):
        """The first Use after `since`, or None if there is none before the thread acts on another look at the word."""
        for commit in self.trace.commits_of(self.context, self.commit.number):
            self.begin(commit)
            use = self.call(commit) if commit.served else self.chunk(commit)
            if use or self.is_over:
                return use
        return None

    def begin(self, commit):
        """What changed between two commits, as the answer of a call, is the same for both copies."""
        for place, (before, now) in enumerate(zip(self.mine.x, commit.before.x)):
            if before != now:
                self.other.x[place] = now
        self.mine.x[:] = commit.before.x

    def call(self, commit):
        used = _ARGUMENTS[: 1 + len(commit.served.arguments)] if commit.served.arguments else ()
        is_same = all(self.mine.x[r] == self.other.x[r] for r in used)
        is_use = commit.first > self.since and not is_same and commit.served.name not in _SILENT
        return Use(commit, None, None) if is_use else None

    def chunk(self, commit):
        accesses = {a.step: a for a in self.trace.accesses_of(commit)}
        for step in range(commit.first, commit.last):
            use = self.instruction(commit, step, accesses.get(step))
            if use or self.is_over:
                return use
        return None

    def instruction(self, commit, step, access):
        after = self.both(step, access)
        if step > self.since and access and access.addr & ~3 == self.word and self.trace.is_look(access):
            self.has_checked = self.has_checked or self.is_check(commit, access)
        if after[0] != after[1]:
            self.is_over = self.has_turned = True
            return None if self.has_checked else self.effect(step, after[1])
        if access and access.kind in isa.STORES and self.is_stored_otherwise(access) and step > self.since:
            self.is_over = True
            return None if self.is_done_again(access) else Use(commit, access, None)
        self.look_for_end(step)
        return None

    def both(self, step, access):
        """Does the step in both copies; where each of them is then."""
        pc = self.trace.pcs[step]
        operation = isa.OPS[self.trace.value_before(pc, step)]
        reserved = access.addr if access and access.kind == isa.SC else None
        return (self.mine.step(operation, pc, lambda index: access.old, reserved),
                self.other.step(operation, pc, lambda index: self.found(index, access, step), reserved))

    def found(self, index, access, step):
        if step == self.load.step:
            return self.value
        if self.is_late and step <= self.since and 4 * index not in self.own_stores:
            return self.trace.value_before(4 * index, self.since + 1)
        return access.old if access and access.addr >> 2 == index else self.trace.value_before(4 * index, step)

    def look_for_end(self, step):
        """Nothing depends on the load any more if the copies are the same."""
        if step >= self.load.step:
            self.steps += 1
            is_same = self.mine.x[1:32] == self.other.x[1:32] and not self.other.own
            self.is_over = is_same or self.steps > MOST_STEPS

    def is_stored_otherwise(self, access):
        """Whether the copies stored different things, in words that others may see. In a word of its own the other copy keeps
        what it stored."""
        mine, other = self.mine.stored, self.other.stored
        self.own_stores.add(access.addr & ~3)
        if mine == other:
            self.other.own.pop(mine[0], None)
            return False
        if access.addr & ~3 in self.shared or other is None or 4 * other[0] in self.shared:
            return True
        self.other.own[mine[0]] = access.old
        self.other.own[other[0]] = other[1]
        return False

    # ------------------------------------------------------------ what came of it

    def is_done_again(self, access):
        """Whether the thread looks at the word once more, and does this store to another word again, before others use what it
        stored: a compare-and-exchange that failed, for example."""
        has_looked, stored = False, access.addr & ~3
        for other, a in self.later(access.step) if stored != self.word else ():
            if self.trace.context(other) == self.context:
                has_looked = has_looked or (a.addr & ~3 == self.word and self.trace.is_look(a))
                if a.kind in isa.STORES and a.addr & ~3 in self.shared:
                    return has_looked and a.addr & ~3 == stored
            elif a.addr & ~3 == stored:
                return False
        return False

    def is_check(self, commit, access):
        """Whether a later look at the word decides a branch: with what the first one found, or might have found, the thread would go
        elsewhere."""
        for value in (self.load.new, self.value):
            if (access.old ^ value) & bits_of(self.load):
                check = _Branch(self.trace, self.shared, (commit, access), value, access.step)
                check.use()
                if check.has_turned:
                    return True
        return False

    def later(self, step):
        """(Commit, Access) of all, after a step."""
        trace = self.trace
        for commit in trace.commits[trace.commit_of(step).number :]:
            yield from ((commit, a) for a in trace.accesses_of(commit) if a.step > step)

    def effect(self, branch, instead):
        """What the thread does after a branch that would have gone elsewhere, before it checks the word again."""
        begin = max(branch, self.since)
        for commit in self.trace.commits_of(self.context, self.trace.commit_of(branch).number):
            for a in self.trace.accesses_of(commit):
                if a.step <= begin:
                    continue
                if a.addr & ~3 == self.word and self.trace.is_look(a) and self.is_check(commit, a):
                    return None
                if self.trace.is_blind(a) and a.addr & ~3 in self.shared and not self.is_done_again(a):
                    return Use(commit, a, instead)
            if commit.served and commit.first > begin and commit.served.name not in _SILENT:
                return Use(commit, None, instead)
        return Use(None, None, instead)


class _Branch(Otherwise):
    """Only finds out whether the copies part at a branch before they store different things."""

    def is_check(self, commit, access):
        return False

    def effect(self, branch, instead):
        return None

    def is_done_again(self, access):
        return False
