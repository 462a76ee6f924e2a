"""Finds put together to bugs: `Grouping(..).bugs(finds)`. One find of each end is shrunk first, then a second one of each, and so
on. Two finds are of the same bug if the forced switches of their shrunk logs come at the same places, before accesses to the
same variables. A find whose switches are those of a smaller one and more counts as that bug."""

from collections import defaultdict, namedtuple
from itertools import zip_longest
import time

from lib.aims import Tries, met
from lib.engine import RAISE, TO_LAST_TURN
from lib.isa import STORES
from lib.judge import Judge
from lib.logs import DMA as DMA_COMMIT
from lib.logs import read_log
from lib.play import play
from lib.recording import Recording
from lib.shrinking import measure
from lib.trace import Trace

from .finds import FindJob
from .hangs import HANG
from .sliding import slid
from .trying import HUNG, OUTCOMES

EACH = 10.0  # seconds for one find, at most

# marks: the forced switches of the shrunk log, as a set of (pc, word); the word is None if the thread comes to no shared word.
# log: its bytes, which were walked.
Shrunk = namedtuple("Shrunk", "find told measure marks trace log")
# least: the Shrunk with the least measure. finds: all that were shrunk to it.
Bug = namedtuple("Bug", "least finds")


class Grouping:
    """image: an Image. condition: what is bad. store: that has the logs. seconds: about so long."""

    def __init__(self, sphere, image, condition, input_name, store, seconds):
        self.sphere, self.image, self.input_name, self.store = sphere, image, input_name, store
        self.deadline, self.condition = time.monotonic() + seconds, condition

    def condition_of(self, find):
        return HANG if find.outcome == OUTCOMES[HUNG] else self.condition

    def bugs(self, finds):
        """(bugs, finds that weren't shrunk in time)."""
        bugs, left = [], []
        for shrunk in sorted(self.shrunk(in_turns(finds), left), key=lambda one: one.measure):
            bug = next((bug for bug in bugs if is_same(bug.least, shrunk)), None)
            if bug:
                bug.finds.append(shrunk.find)
            else:
                bugs.append(Bug(shrunk, [shrunk.find]))
        return sorted(bugs, key=lambda bug: -len(bug.finds)), left

    def shrunk(self, finds, left):
        for find in finds:
            seconds = min(EACH, self.deadline - time.monotonic())
            one = self.shrink(find, seconds) if seconds > 0 else None
            if one:
                yield one
            else:
                left.append(find)

    def shrink(self, find, seconds):
        """The Shrunk of a find, or None if its log doesn't end so."""
        data = self.store.log(find.setting, find.seed)
        job = FindJob(self.sphere, self.image, self.condition_of(find), self.input_name, find.seed, read_log(data))
        recording = Recording(job, data)
        aim = met(recording, job.condition)
        if aim is None:
            return None
        told = Tries(job, recording, seconds).least([aim])[2]
        with job.engine(recording.answers, recording.dmas, aim.condition) as engine:
            told = slid(engine, told, aim.until, self.deadline)
        log = Judge(job.given.image, job.given.memory, aim.condition, aim.until == TO_LAST_TURN).judged(told).log
        trace = Trace(self.image, told.log, play(self.image, told.log))
        return Shrunk(find, told, measure(told.turns), frozenset(marks_of(told, trace)), trace, log)


def is_same(least, shrunk):
    """Whether a find is of the bug of one that isn't larger: its switches are those, and maybe more."""
    return least.find.outcome == shrunk.find.outcome and variables(least) <= variables(shrunk)


def variables(shrunk):
    """The marks, with the variables that the words are of: an array is one."""
    return {(pc, word if word is None else shrunk.trace.names.whole_name(word)) for pc, word in shrunk.marks}


def in_turns(finds):
    """One find of each end, then a second one of each, and so on."""
    groups = defaultdict(list)
    for find in finds:
        groups[find.outcome, find.threads, find.console].append(find)
    return [find for row in zip_longest(*groups.values()) for find in row if find]


# ---------------------------------------------------------------- marks


def marks_of(told, trace):
    """(pc, word) of each forced switch: of the access to a shared word that the thread that is left does next; and of each
    interrupt, with the pc at which it came."""
    shared = {word for word, places in trace.words.items() if is_shared(trace, places)}
    for place in forced_switches(told, trace):
        yield next_access(trace, trace.commits[place].actor, place + 1, shared)
    for commit in trace.commits:
        if commit.raised is not None:
            yield trace.thread_at(commit.actor, commit.number + 1).saved[0], None


def is_shared(trace, places):
    steps = [trace.accesses[place] for place in places]
    actors = {trace.commit_of(access.step).actor for access in steps}
    return len(actors) > 1 and any(access.kind in STORES for access in steps)


def forced_switches(told, trace):
    """The numbers of the commits after which a thread was left that could have gone on."""
    turns = [turn for turn in told.turns if turn.actor < RAISE]
    ends = [turn.end for turn, after in zip(turns, turns[1:]) if turn.actor != after.actor]
    order = [commit.actor for commit in trace.commits]
    last = [place for place, (before, after) in enumerate(zip(order, order[1:])) if before != after]
    return [place for place, end in zip(last, ends) if end == "forced" and order[place] != DMA_COMMIT]


def next_access(trace, actor, first, shared):
    """(pc, word) of the thread's first access to a shared word from a commit on; where there is none, its pc at the end."""
    for commit in trace.commits[first:]:
        if commit.actor == actor:
            for access in trace.accesses[commit.first_access : commit.last_access]:
                if access.addr & ~3 in shared:
                    return access.pc, access.addr & ~3
    return trace.machine.threads[actor].pc, None
