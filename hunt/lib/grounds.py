"""What a failure rests on if nothing was stale: `grounds(trace, story, waiting, is_alone)`, in words. Of a thread that fails, what it had
found there; of one that waits for ever, who could have ended that, and when."""

from collections import namedtuple

from . import isa
from .chains import places
from .naming import naming_of
from .notes import KINDS, LOCKS, notes_of
from .story import CHECKING, UNTOLD, thread_name
from .telling import values
from .trace import context_name
from .words import bits_of

MOST_WORDS, MOST_CALLS = 3, 8  # of a thread that fails
CONDITION, JOIN, SEMAPHORE = (KINDS.index(kind) for kind in ("condition", "the end of", "semaphore"))
WAKING = {CONDITION: ("pthread_cond_signal", "pthread_cond_broadcast"), SEMAPHORE: ("sem_post",)}
DONE = {CONDITION: "signalled it", SEMAPHORE: "posted it"}

# A line, and the steps of what it tells.
Ground = namedtuple("Ground", "text steps")


def grounds(trace, story, waiting, is_alone):
    """The Grounds of each thread that has failed. waiting: if the program never ends, the notes of the threads that wait: of these, who
    could have woken them. is_alone: whether nothing else is told, so at least who holds the lock, or that all wait for one's end."""
    found = [ground for number, thread in enumerate(trace.machine.threads) if has_failed(thread)
             for ground in _of_failed(trace, story, number)]
    found += signals(trace, story, waiting)
    if is_alone and not found:
        found = [_of_others(trace, story, note) for note in waiting] or [Ground("no load was stale when it was used", set())]
    return found


def signals(trace, story, waiting):
    """Of each thread that waits for a condition or a semaphore, who has signalled last."""
    return [_of_signals(trace, story, note) for note in waiting if KINDS.index(note.waits.kind) in WAKING]


def has_failed(thread):
    state, code = thread.status
    return state == "fault" or state == "ended" and code != 0


def _name(story, number):
    return thread_name(number, story.function_of(number))


# ---------------------------------------------------------------- what a thread that fails had found


def _of_failed(trace, story, number):
    """Its last loads of variables and of the heap that others had stored to, each word once; the line at which it fails comes first."""
    where, naming = places(trace, story.own, number), story.naming
    loads = _last_loads(trace, story, number, [call for call in story.calls if _is_at(story, call, number, where)][-MOST_CALLS:])
    there = [pair for pair in loads if trace.names.place(naming.caller(pair[1].pc, pair[1].step)[1]) in where]
    if not loads:
        yield Ground("%s fails without having loaded a variable or a word of the heap" % _name(story, number), set())
    for commit, a in sorted((there or loads)[:MOST_WORDS], key=lambda pair: pair[1].step):
        last = _stored(trace, a)
        who = "as it was %s" % trace.begun() if last is None else "which %s has stored (commit %d, %s)" % (
            "it" if last[0].actor == number else context_name(trace.context(last[0])), last[0].told, naming.place_of(last[1]))
        steps = {a.step} | ({last[1].step} if last else set())
        yield Ground("%s fails with what it finds: %s = %s (commit %d, %s), %s" % (
            _name(story, number), naming.word_of(a), values(a).rpartition(" over ")[2], commit.told, naming.place_of(a), who), steps)


def _is_at(story, call, number, where):
    """Whether a call is one of the thread's at these places, and of a function that looks at what it was given, as strcmp does."""
    is_looking = call.name not in UNTOLD | CHECKING and not call.name.startswith("_")
    return call.who.thread == number and is_looking and story.place_of(call.at) in where


def _is_given(story, a, call):
    """Whether an access in a call is to a variable or a block that the call was given."""
    def whole(addr):
        return story.naming.heaps.at(a.step).block(addr) if story.own.is_heap(addr) else story.names.symbol(addr)

    there = whole(a.addr) if call.first <= a.step < call.last else None
    return there is not None and any(whole(given) == there for given in call.arguments[:2])


def _last_loads(trace, story, number, calls):
    """(Commit, Access) of the thread's last look at each word, its own and in these calls of its library, the last one first."""
    found = {}
    for commit in reversed(trace.commits):
        if commit.actor != number:
            continue
        for a in reversed(trace.accesses_of(commit)):
            is_own = story.own.is_code(a.pc) and a.pc not in story.own.lock_code or any(_is_given(story, a, call) for call in calls)
            is_told = is_own and (story.own.is_data(a.addr) or story.is_shared(a.addr))
            if is_told and trace.is_look(a) and not story.is_lock(a.addr):
                found.setdefault(a.addr & ~3, (commit, a))
    return list(found.values())


def _stored(trace, load):
    """The last store to what is loaded, before that, as (Commit, Access), or None."""
    stores = [pair for pair in trace.of_word(load.addr)
              if pair[1].kind in isa.STORES and pair[1].step < load.step and bits_of(pair[1]) & bits_of(load)]
    return stores[-1] if stores else None


# ---------------------------------------------------------------- who could have ended a wait


def _waits(trace, story, note):
    """For example `thread 1 (take) waits for condition is_full (take, queue.c:12)`."""
    kind, what = note.waits.kind, note.waits.object
    name = "thread %d" % what if KINDS.index(kind) == JOIN else naming_of(trace).word(what, 4, trace.steps)
    return "%s waits for %s %s (%s)" % (thread_name(note.thread, note.function), kind, name, trace.names.place(note.waits.at))


def _of_signals(trace, story, note):
    """Who signalled last before the wait, and whether anyone did since."""
    kind, begun, head = KINDS.index(note.waits.kind), _begun(trace, story, note), _waits(trace, story, note)
    calls = [call for call in story.calls if call.name in WAKING[kind] and call.arguments[0] == note.waits.object]
    if not calls:
        return Ground("%s, and nobody has ever %s" % (head, DONE[kind]), {begun})
    last = calls[-1]
    who = "it" if last.who.thread == note.thread else context_name(last.who)
    text, rest = ("%s; %s %s last", ", which didn't wake it") if last.first > begun else ("%s; %s %s before that", ", and nobody has since")
    return Ground((text + " (commit %d, %s)" + rest) % (
        head, who, DONE[kind], trace.commit_of(last.first).told, trace.names.place(last.at)), {last.first, begun})


def _begun(trace, story, note):
    """The step with which a thread began to wait: in its last call, that in which it is counted as one that waits, if it is."""
    mine = [call for call in story.calls if call.who.thread == note.thread and call.result is None]
    first = mine[-1].first if mine else trace.steps
    return next((a.step for commit, a in trace.of_word(note.waits.object)
                 if commit.actor == note.thread and a.step >= first and a.kind in isa.STORES), first)


def _of_others(trace, story, note):
    head, holder = _waits(trace, story, note), _holder(trace, note.waits.object) if KINDS.index(note.waits.kind) in LOCKS else None
    if holder:
        return Ground("%s, %s" % (head, holder), set())
    return Ground(head + (", which never ends" if KINDS.index(note.waits.kind) == JOIN else ", and no thread that is left comes there"), set())


def _holder(trace, lock):
    for is_live in (True, False):
        for note in notes_of(trace, is_live):
            for held in note.holds:
                if held.object == lock:
                    return "which thread %d %s%s since %s" % (
                        note.thread, "" if is_live else "has ended with, and ", held.verb, trace.names.place(held.at))
    return None
