"""A log that is to be made smaller, and how its run ends: `Recording(job, data)`.

The log is walked, and the engine takes its commits exactly. Their accounts must be the same, to the byte; else nothing is made
of it. If threads are live at the log's end, the engine goes on from there: all of them may come to their end, or no thread goes
on any more, or the limit of steps is met before.
"""

import re

from .account import NotWalked
from .conditions import ANY, COMPARISONS, Atom, Ended
from .engine import EXACTLY, TO_LAST_TURN
from .judge import Differs, Judge
from .logs import Malformed, read_log
from .searching import Refused
from .shrinking import turns_of


def commits_of(account):
    """(actor, size) of each commit that the account tells."""
    return [(int(actor), int(size)) for actor, size in re.findall(rb"^c \d+ (\d+) (\d+)$", account, re.M)]


class Recording:
    """log: a Log. commits: (actor, size) of each. turns: of the engine. answers, dmas: what came from outside. at_log_end,
    at_end: an Ended where the log ends, and where its run does. leaf: ended, waits or repeats; or, if at_end isn't known, limited
    or doubtful."""

    def __init__(self, job, data):
        self.job = job
        try:
            self.log = read_log(data)
            account = job.judge.walked(data)
        except Malformed as error:
            raise Refused("refused log 0 %d %d" % error.args) from None
        except NotWalked as error:
            raise Refused("the walk failed: %s" % error.args[0]) from None
        self.at_log_end, self.commits = Ended(account), commits_of(account)
        if not self.at_log_end.is_complete:
            raise Refused("the log doesn't fit the image: " + account.decode().split("\n")[-2])
        self.turns, self.dmas = turns_of(self.log, self.commits), [data for _, data in self.log.dmas]
        job.allow_steps(sum(max(1, size) for _, size in self.commits))
        with job.engine([(ANY, answer) for answer in self.log.inputs], self.dmas, condition=[]) as engine:
            _, told = engine.told(self.turns, EXACTLY, TO_LAST_TURN)
            Judge.compare(told.account, account)
            self.answers = told.answers
            self.at_end, self.leaf = self.gone_on(job, engine)

    def gone_on(self, job, engine):
        """Where the run ends, and how: judged as a find is, its hangs too."""
        if not self.live():
            return self.at_log_end, "ended"
        if engine.guided(self.turns, EXACTLY)[0] == "limited":
            return self.at_log_end, "limited"
        told, any_end = engine.told(self.turns, EXACTLY)[1], [[]]
        try:
            return job.judge.of(any_end).judged(told).ended, told.leaf
        except Differs:
            return self.at_log_end, "doubtful"

    def passes(self, condition):
        """Whether the log comes to a moment that the condition is of."""
        with self.job.engine(self.answers, self.dmas, condition) as engine:
            return engine.guided(self.turns, EXACTLY, TO_LAST_TURN)[0] == "bad"

    def ends_badly(self, condition):
        """Whether the engine finds that the run, gone on with, meets the condition."""
        with self.job.engine(self.answers, self.dmas, condition) as engine:
            return engine.guided(self.turns, EXACTLY)[0] == "bad"

    # ------------------------------------------------------------ its end

    def live(self):
        """The threads that are live at the log's end."""
        return [k for k, (status, _) in enumerate(self.at_log_end.threads) if status == "live"]

    def is_at_end(self):
        """Whether at_end is known."""
        return self.leaf in ("ended", "waits", "repeats")

    def hung(self):
        """The threads that never end."""
        return [k for k in self.live() if self.is_at_end() and self.at_end.threads[k][0] == "live"]

    def end(self):
        """The log's own end, as Atoms of a condition: each thread that has ended or faulted did so in this way; and where none
        has faulted, those that hang do."""
        equal, atoms = COMPARISONS.index("="), []
        for thread, (status, code) in enumerate(self.at_log_end.threads):
            if status != "live":
                atoms.append(Atom("exit" if status == "ended" else "fault", equal, thread, code, 0, b""))
        if not any(atom.kind == "fault" for atom in atoms):
            atoms += [Atom("hang", 0, thread, 0, 0, b"") for thread in self.hung()]
        return atoms

    def ends_like(self, ended):
        """Whether another account's Ended has the log's own end."""
        return all(ended.holds(atom) for atom in self.end())
