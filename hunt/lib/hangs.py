"""What threads wait for at the end of a log: `waits(trace)`, and `hang_lines(trace)` in words.

A thread waits if it goes on alone and comes back to its state, so it does the same for ever unless another thread changes
something. That is walked: a log that is longer by the loop leads to the same registers and memory as the one before.
"""

from collections import namedtuple

from . import isa
from .loops import MORE_STEPS, TooLong, long_loop_of
from .naming import naming_of
from .telling import place
from .trace import context_name

MOST_WORDS = 4

# A live thread. loop: its Loop, or None if it goes on or is_long: it came to no state again in MORE_STEPS. chain: pcs: where it looks at
# what it waits for, and the calls that led there. words: addresses that it looks at in the loop, and that others use. threads: whose
# end it waits for. channels: it reads.
Wait = namedtuple("Wait", "thread loop chain words threads channels is_long", defaults=(False,))


class NotShown(Exception):
    """args: why nothing can be told."""


def waits(trace):
    """A Wait for each live thread."""
    if trace.longer is None:
        raise NotShown("the loops of waiting threads are walked, so --account won't do")
    if trace.end[0] != "complete":
        raise NotShown("the log leaves the program, so nothing is known of its end")
    return [_wait(trace, k) for k, thread in enumerate(trace.machine.threads) if thread.live()]


def _wait(trace, k):
    thread = trace.machine.threads[k]
    try:
        loop = long_loop_of(trace.machine, k, trace.log.s)
    except TooLong:
        return Wait(k, None, _calls(trace, trace.machine, thread), [], [], [], True)
    if loop is None or not all(_is_own(trace, k, word) for word in loop.changed) or not _is_walked(trace, k, loop):
        return Wait(k, None, _calls(trace, trace.machine, thread), [], [], [])
    words = _words(trace, k, loop)
    threads = sorted({served.arguments[0] for served in loop.calls if served.name == "ended"} - {k})
    channels = sorted({served.arguments[0] for served in loop.calls if served.name in ("read", "write")})
    return Wait(k, loop, _chain(trace, k, loop, words), words, threads, channels)


def _calls(trace, machine, thread):
    return trace.frames.chain(thread.pc, thread.x, lambda addr: machine.words[addr >> 2])


def _is_own(trace, k, word):
    """Whether others won't notice a change of the word: it is below the thread's stack, or only this thread has used it."""
    users = {commit.actor for commit, _ in trace.of_word(word)}
    return word < trace.machine.threads[k].x[2] and not users - {k} or users == {k}


def _is_walked(trace, k, loop):
    """Whether the walk of the loop comes back to where it began."""
    def after(commits):
        return trace.longer([(k, *commit) for commit in commits]).machine.save() if commits else trace.machine.save()

    before, again = after(loop.before), after(loop.before + loop.commits)
    counted = [state._replace(threads=tuple(t._replace(commits=0) for t in state.threads)) for state in (before, again)]
    return counted[0] == counted[1]


def _words(trace, k, loop):
    """The words that the loop looks at and others use; if there are none, as in a tail, those that aren't in the symbol that the
    thread's stack is in; else all that it looks at."""
    looked = list(dict.fromkeys(a.addr & ~3 for a in loop.accesses if a.kind in isa.LOADS))
    shared = [word for word in looked if any(commit.actor != k for commit, _ in trace.of_word(word))]
    stack = trace.names.symbol(trace.machine.threads[k].x[2])
    others = [word for word in looked if stack is None or trace.names.symbol(word) != stack]
    return (shared or others or looked)[:MOST_WORDS]


def _chain(trace, k, loop, words):
    """The pcs of the first look at one of the words, or of the first call, and of what called it. If there is neither, of where the
    loop begins."""
    machine = trace.machine
    look = next((a.pc for a in loop.accesses if a.addr & ~3 in words), None)
    mark = machine.mark()
    try:
        for size, answer in loop.before:
            machine.run(k, size) if size else machine.serve(k, answer)
        thread = machine.threads[k]
        for _ in range(sum(max(1, size) for size, _ in loop.commits)):
            if thread.pc == look or (look is None and machine.serial(k)):
                break
            if not machine.run(k, 1):
                machine.serve(k, next((answer for _, answer in loop.commits if answer), None))
        return _calls(trace, machine, thread)
    finally:
        machine.back(mark)


# ---------------------------------------------------------------- who waits for whom


def last_change(trace, word):
    """The last store that gave the word another value, as (Commit, Access), or None."""
    stores = [pair for pair in trace.of_word(word) if pair[1].old != pair[1].new]
    return stores[-1] if stores else None


def waits_for(trace, wait):
    """The threads that could end the wait: whose end it waits for; and who stored last to a word. If that was the thread itself, by
    a plain store, it is all others that have stored there. By an exchange it has taken a lock, and waits for itself."""
    found = list(wait.threads)
    for word in wait.words:
        last = last_change(trace, word)
        if last and (last[0].actor != wait.thread or not trace.is_blind(last[1])):
            found.append(last[0].actor)
        else:
            found += [c.actor for c, a in trace.of_word(word) if a.kind in isa.STORES and c.actor != wait.thread]
    return list(dict.fromkeys(found))


def circle(trace, found):
    """Threads each of which waits for the next one, and the last one for the first; or None."""
    edges = {wait.thread: waits_for(trace, wait) for wait in found if wait.loop}

    def from_here(path):
        for after in edges.get(path[-1], ()):
            if after in path:
                return path[path.index(after) :]
            longer = from_here(path + [after])
            if longer:
                return longer
        return None

    return next(filter(None, (from_here([thread]) for thread in sorted(edges, reverse=True))), None)


# ---------------------------------------------------------------- in words


def hang_lines(trace, found=None):
    """What each live thread waits for, or each of the found Waits, and the circle; [] if there is none."""
    found = waits(trace) if found is None else found
    lines = [line for wait in found for line in _lines(trace, wait)]
    around = circle(trace, found)
    if around:
        pairs = zip(around, around[1:] + around[:1])
        lines.append("a circle: " + ", ".join("thread %d waits for thread %d" % pair if pair[0] != pair[1] else
                                              "thread %d waits for itself" % pair[0] for pair in pairs))
    return lines


def _lines(trace, wait):
    own = [pc for pc in wait.chain if naming_of(trace).own.is_code(pc)]
    where = ", called from ".join(dict.fromkeys(place(trace, pc) for pc in own or wait.chain))
    if wait.loop is None:
        goes = "comes to no state again in %d steps" % MORE_STEPS if wait.is_long else "could go on"
        yield "thread %d %s: %s" % (wait.thread, goes, where)
        return
    yield "thread %d waits: %s" % (wait.thread, where)
    yield from ("    for %s" % text for text in _reasons(trace, wait))


def _reasons(trace, wait):
    for word in wait.words:
        last = last_change(trace, word)
        value = trace.machine.words[word >> 2]
        who = "as it was %s" % trace.begun() if last is None else "stored by %s (commit %d, %s)" % (
            _name(trace, last[0], wait), last[0].told, naming_of(trace).place_of(last[1]))
        yield "%s, which is %08X, %s" % (naming_of(trace).word(word, 4, trace.steps), value, who)
    for thread in wait.threads:
        yield "thread %d to end" % thread
    for channel in wait.channels:
        yield "channel %d" % channel


def _name(trace, commit, wait):
    if commit.actor == wait.thread:
        return "itself"
    threads = trace.machine.threads
    status = threads[commit.actor].status[0] if commit.actor < len(threads) else "live"
    name = context_name(trace.context(commit))
    return name + {"live": "", "ended": ", which has ended", "fault": ", which has faulted"}[status]
