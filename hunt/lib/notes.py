"""What the library of delorean-cc notes of each thread, in the memory at a run's end: `notes_of(trace)`. Each thread writes into
its own block which locks it holds, what it waits for, and where in the program it asked for them."""

from collections import namedtuple

from . import isa
from .chains import chain_text, places
from .naming import naming_of

# thread: the kernel's number. function: what it began with, or None. waits: a Wait, or None. holds: of Held, in order.
Note = namedtuple("Note", "thread function waits holds")
# kind: in words, for example `mutex`. object: its address, or a thread's number if it waits for the end of one. at: a pc.
Wait = namedtuple("Wait", "kind object at")
# verb: what it does with the object: it holds a lock, or it is in a once, and runs its function.
Held = namedtuple("Held", "object at verb", defaults=("holds",))

KINDS = ("", "mutex", "condition", "the end of", "barrier", "lock to read", "lock to write", "semaphore", "once", "spin lock", "pipe")
JOIN, ONCE, LOCKS = 3, 8, (1, 5, 6, 8, 9)  # LOCKS: of which others wait until one thread is done
# Words of a thread's block; where blocks are is in the words of the library's `__numbers`.
NUMBER, FUNCTION, WAITS, WAITS_FOR, WAITS_AT, HELD_COUNT, HELD = 0, 2, 5, 6, 7, 8, 9
MOST_HELD = 8
NEEDED = ("__numbers", "__threads")


class _Blocks:
    def __init__(self, trace):
        self.trace, self.words = trace, trace.machine.words
        numbers = trace.names.value("__numbers") >> 2
        self.count, self.room, self.stack = self.words[numbers : numbers + 3].tolist()
        self.first = trace.names.value("__threads")

    def addresses(self):
        return [self.first + slot * self.room + self.stack for slot in range(self.count)]

    def word(self, block, number):
        return self.words[(block >> 2) + number]

    def numbers(self):
        """The kernel's number of each block's thread. Only the first thread has 0."""
        return {block: self.word(block, NUMBER) for j, block in enumerate(self.addresses()) if j == 0 or self.word(block, NUMBER)}


def _wait(blocks, block, numbers):
    kind = blocks.word(block, WAITS)
    if not 0 < kind < len(KINDS):
        return None
    target = blocks.word(block, WAITS_FOR)
    return Wait(KINDS[kind], numbers.get(target, 0) if kind == JOIN else target, blocks.word(block, WAITS_AT) - 4)


def _note(blocks, block, numbers):
    count = min(blocks.word(block, HELD_COUNT), MOST_HELD)
    holds = [Held(blocks.word(block, HELD + 2 * j), blocks.word(block, HELD + 2 * j + 1) - 4) for j in range(count)]
    begun = blocks.word(block, FUNCTION)
    function = blocks.trace.names.function(begun) if begun else "main" if numbers[block] == 0 else None
    return Note(numbers[block], function, _wait(blocks, block, numbers), holds)


def _note_runner(trace, notes, once):
    """Notes of the thread that came first to a once that it is in it: others wait until it is done."""
    commit, first = next(((c, a) for c, a in reversed(trace.of_word(once)) if a.kind in isa.STORES and a.old == 0 != a.new), (None, None))
    for note in notes:
        if first and note.thread == commit.actor:
            note.holds.append(Held(once, naming_of(trace).caller(first.pc, first.step)[1], "is in"))


def notes_of(trace, is_live=True):
    """The Note of each thread that is live at the end, or of each that isn't, by number. None of any if the image has no notes."""
    if not all(trace.names.has(name) for name in NEEDED):
        return []
    blocks = _Blocks(trace)
    numbers = blocks.numbers()
    notes = [_note(blocks, block, numbers) for block, number in numbers.items() if number < len(trace.machine.threads)]
    for once in sorted({note.waits.object for note in notes if note.waits and note.waits.kind == KINDS[ONCE]}):
        _note_runner(trace, notes, once)
    return sorted((n for n in notes if trace.machine.threads[n.thread].live() == is_live), key=lambda n: n.thread)


# ---------------------------------------------------------------- in words


def object_name(trace, wait):
    return "thread %d" % wait.object if wait.kind == KINDS[JOIN] else naming_of(trace).word(wait.object, 4, trace.steps)


def left_held(trace, wait):
    """Who has ended with the lock that is waited for, in words; or None."""
    for note in notes_of(trace, False) if wait.kind in [KINDS[kind] for kind in LOCKS] else ():
        for held in note.holds:
            if held.object == wait.object:
                return "thread %d%s has ended, and %s it since %s" % (
                    note.thread, " (%s)" % note.function if note.function else "", held.verb, trace.names.place(held.at))
    return None


def note_line(trace, own, note):
    """For example `thread 1 (first) waits for mutex b, first, deadlock.c:9; holds a since first, deadlock.c:7`."""
    parts = []
    if note.waits:
        where = places(trace, own, note.thread) or [trace.names.place(note.waits.at)]
        parts.append("waits for %s %s, %s" % (note.waits.kind, object_name(trace, note.waits), chain_text(where)))
        parts += filter(None, [left_held(trace, note.waits)])
    parts += ["%s %s since %s" % (held.verb, naming_of(trace).word(held.object, 4, trace.steps), trace.names.place(held.at)) for held in note.holds]
    who = "thread %d%s" % (note.thread, " (%s)" % note.function if note.function else "")
    return "%s %s" % (who, "; ".join(parts) or "neither waits nor holds a lock")


def waited_for(note, notes):
    """The number of the thread that a note's thread waits for, if one has what it wants; else None."""
    if note.waits is None:
        return None
    if note.waits.kind == KINDS[JOIN]:
        return note.waits.object
    if note.waits.kind not in [KINDS[kind] for kind in LOCKS]:
        return None
    return next((other.thread for other in notes if any(held.object == note.waits.object for held in other.holds)), None)


def circle(notes):
    """The numbers of threads that wait for one another, or []."""
    after = {note.thread: waited_for(note, notes) for note in notes}
    for first in after:
        path = [first]
        while after.get(path[-1]) is not None and after[path[-1]] not in path:
            path.append(after[path[-1]])
        if after.get(path[-1]) == first:
            return path
    return []


def note_lines(trace, own, notes):
    """Who waits for what and holds what, and the threads that wait for one another."""
    yield from (note_line(trace, own, note) for note in notes if note.waits or note.holds)
    round_ = circle(notes)
    if len(round_) == 1:
        yield "thread %d waits for itself" % round_[0]
    elif round_:
        yield "so " + ", ".join("thread %d waits for thread %d" % pair for pair in zip(round_, round_[1:] + round_[:1]))
