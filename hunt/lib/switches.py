"""Forced switches of a log, that is, those away from a thread that could have gone on: `forced_switches(trace)`, and `crossing(trace,
switch)`, what came of one at which nothing was stale."""

from collections import namedtuple

from . import isa
from .logs import DMA
from .loops import TooLong, long_loop_of, loop_of
from .machine import CONSOLE_CHANNEL, WRITE
from .trace import Moment
from .words import bits_of, shared_words

# Of a log that was searched for, or made small. In others most switches mean nothing; and each takes a play of what its thread would
# have done.
MOST_SWITCHES, MOST_FORCED = 40, 4

# thread: that is left. last: the number of its commit before. back: that of its next one, or of the log's end.
Switch = namedtuple("Switch", "thread last back")
# What the thread did last in a word that others use, as (Commit, Access); what others did in the gap (other), and what the thread did
# before or after (own) with the same word, where one of the two stores. is_before: which of these own is.
Crossing = namedtuple("Crossing", "last own other is_before")
# Commits that print: the thread's last before (or None), another one's in the gap, and the thread's first after it.
Printing = namedtuple("Printing", "last other own")


def forced_switches(trace):
    """All Switches; [] if there are many."""
    found, moment = switches(trace), Moment(trace)
    forced = [switch for switch in found if _could_go_on(trace, moment, switch)] if len(found) <= MOST_SWITCHES else []
    return forced if len(forced) <= MOST_FORCED else []


def ends_badly(trace):
    """Whether a thread has faulted or ended with another code than 0, or no live thread could go on."""
    live = [k for k, thread in enumerate(trace.machine.threads) if thread.live()]
    if any(not thread.live() and thread.status != ("ended", 0) for thread in trace.machine.threads):
        return True
    return bool(live) and all(_waits(trace, k) for k in live)


def _waits(trace, k):
    try:
        return long_loop_of(trace.machine, k, trace.log.s) is not None
    except TooLong:
        return False


def switches(trace):
    """A Switch for each point at which a thread's commits are followed by others'."""
    found, last = [], {}
    for before, after in zip(trace.commits, trace.commits[1:]):
        if before.actor not in (after.actor, DMA):
            last[before.actor] = before.number
        if after.actor in last:
            found.append(Switch(after.actor, last.pop(after.actor), after.number))
    found += [Switch(thread, number, len(trace.commits)) for thread, number in last.items()]
    return sorted(found, key=lambda switch: switch.last)


def _could_go_on(trace, moment, switch):
    """Whether the thread, going on alone, would do something that others can notice, before it waits if it does."""
    moment.seek(trace.commits[switch.last].last)
    if not moment.machine.threads[switch.thread].live():
        return False
    loop = loop_of(moment.machine, switch.thread, trace.log.s)
    return loop is None or any(answer and answer.kind == WRITE for _, answer in loop.before) or any(
        commit.actor != switch.thread for word in loop.changed for commit, _ in trace.of_word(word))


def crossing(trace, switch, is_told):
    """The Crossing of a switch: the first access after it that couldn't have come before what others did in the gap; or else the last
    one before it of which others saw something there. None if there is neither. is_told: whether accesses at a pc count."""
    shared = frozenset(shared_words(trace))
    before, gap, after = ([
        (commit, a) for commit in part if (commit.actor == switch.thread) == is_own
        for a in trace.accesses_of(commit) if a.addr & ~3 in shared and is_told(a.pc)] for part, is_own in _parts(trace, switch))
    pair = next(((own, other) for own in after for other in reversed(gap) if _conflict(own, other)), None)
    is_before = pair is None
    if is_before:
        pair = next(((own, other) for own in reversed(before) for other in gap if _conflict(own, other)), None)
    return Crossing(before[-1] if before else None, *pair, is_before) if pair else None


def printing(trace, switch):
    """The Printing of a switch, or None."""
    before, gap, after = ([commit for commit in part if (commit.actor == switch.thread) == is_own and printed(commit)]
                          for part, is_own in _parts(trace, switch))
    return Printing(before[-1] if before else None, gap[-1], after[0]) if gap and after else None


def printed(commit):
    """The bytes that a commit puts on the console."""
    output = commit.served.output if commit.served else None
    return output[1] if output and output[0] == CONSOLE_CHANNEL else b""


def _parts(trace, switch):
    """The commits before the switch, in the gap and after it, each with whether the thread's own count."""
    commits, first, back = trace.commits, switch.last + 1, switch.back
    return (commits[:first], True), (commits[first:back], False), (commits[back:], True)


def _conflict(one, other):
    (_, a), (_, b) = one, other
    stores = [x for x in (a, b) if x.kind in isa.STORES]
    return a.addr & ~3 == b.addr & ~3 and bits_of(a) & bits_of(b) and any(x.old != x.new for x in stores)
