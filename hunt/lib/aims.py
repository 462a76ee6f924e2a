"""What a smaller log must keep of the one that was given, `aims_of(recording, condition, same)`, and the Tries for it.

Without a condition it is the log's own end. With one it is whatever meets it; but the log's own end is tried first, and another
one is taken only if that has fewer forced switches.
"""

from collections import namedtuple
import time

from .conditions import HANGS, is_of_moment
from .engine import TO_ITS_END, TO_LAST_TURN
from .judge import Differs
from .searching import counted
from .shrinking import Shrinker, measure

# condition: a list of cases, as conditions.py has them. until: where the runs end.
Aim = namedtuple("Aim", "condition until")


def without(condition, *kinds):
    """The cases that have no atom of these kinds."""
    return [case for case in condition if not any(atom.kind in kinds for atom in case)]


def decided(recording, condition):
    """Without the cases that want a thread stuck, if the state comes again but the engine found an order that goes on."""
    if recording.leaf == "repeats" and not recording.ends_badly(condition):
        return without(condition, "stuck")
    return condition


def met(recording, condition):
    """The Aim in the way in which the recording meets the condition, or None if it doesn't: at its run's end; or else where the
    log ends, although threads could go on, where nothing is a hang; or else at a moment before."""
    if recording.at_end.meets(decided(recording, condition), recording.is_at_end()):
        return Aim(condition, TO_ITS_END)
    here, moments = without(condition, *HANGS), [case for case in condition if is_of_moment(case)]
    if recording.at_log_end.meets(here, True):
        return Aim(here, TO_LAST_TURN)
    return Aim(moments, TO_LAST_TURN) if moments and recording.passes(moments) else None


def narrowed(aim, recording):
    """The Aim that the log's own end is kept too; None if it has none."""
    own = recording.end()
    if any(map(is_of_moment, aim.condition)):
        return None  # the run is at its end there
    if aim.until == TO_LAST_TURN:
        own = [atom for atom in own if atom.kind not in HANGS]
    return aim._replace(condition=[case + own for case in aim.condition]) if own else None


def aims_of(recording, condition, same):
    """Those that are tried, in this order; none if the recording doesn't end badly."""
    if not condition:
        own = recording.end()
        return [Aim([own], TO_ITS_END)] if own else []
    aim = met(recording, condition)
    if aim is None:
        return []
    narrow = narrowed(aim, recording)
    if narrow is None:
        return [aim]
    return [narrow] if same else [narrow, aim]


class Tries:
    """What was tried for one log, aim by aim."""

    def __init__(self, job, recording, seconds):
        self.job, self.recording, self.deadline, self.shrinkers = job, recording, time.monotonic() + seconds, []

    def is_late(self):
        return time.monotonic() > self.deadline

    def runs(self):
        return sum(shrinker.tries for shrinker in self.shrinkers)

    def found(self, aim):
        """The aim, the measure of the least run that it led to, and that run as Told."""
        with self.job.engine(self.recording.answers, self.recording.dmas, aim.condition) as engine:
            shrinker = Shrinker(engine, aim.until, self.deadline)
            self.shrinkers.append(shrinker)
            least = shrinker.shrunk(self.recording.turns)
            if least is None:
                raise Differs("the engine loses the log's end")
            return aim, measure(least), shrinker.told(least)

    def least(self, aims):
        """Of the first aim, or of a later one if that has fewer forced switches."""
        best = self.found(aims[0])
        for aim in aims[1:]:
            if not self.is_late():
                best = min(best, self.found(aim), key=lambda found: found[1][0])
        return best

    def stopped(self):
        """What was done when Ctrl-C came."""
        runs = counted(self.runs(), "run")
        least = [shrinker.least for shrinker in self.shrinkers if shrinker.least]
        if not least:
            return "nothing was tried yet, and nothing is written"
        forced, switches, *_ = min(map(measure, least))
        return "in %s it came down to %s, %d forced; nothing is written" % (runs, counted(switches, "switch"), forced)
