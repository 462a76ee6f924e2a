"""What the proved program says of a log: `Judge(image, memory, condition).judged(told)` walks it.

The walk's account must be the one that the engine expects, to the byte, and meet the condition. A hang is walked further: from
the end on each live thread does its loop once more, and must be back in the state where it began, memory with it; and after
each of the loop's stores memory must be as it was. Only then may anything be written.
"""

from collections import namedtuple
import tempfile

from .account import Walk
from .conditions import Ended
from .logs import write_log

MOST_WALKS = 64  # of one thread's loop

# ended: what the account tells. looped: of how many threads' loops it was walked that they come back. log: the bytes.
Verdict = namedtuple("Verdict", "ended looped log")


class Differs(Exception):
    """The engine is wrong, and its find is none; args: where."""


class Judge:
    def __init__(self, image, memory, condition, is_cut=False):
        """is_cut: the condition, without hangs, is of where a log ends, even if threads could go on."""
        self.image, self.memory, self.condition, self.is_cut = image, memory, condition, is_cut

    def of(self, condition):
        """A Judge of the same image, with another condition."""
        return Judge(self.image, self.memory, condition)

    def walked(self, log):
        """The account that the proved program's walk puts for the log's bytes."""
        with tempfile.NamedTemporaryFile(prefix="walked-", suffix=".log") as file:
            file.write(log)
            file.flush()
            return Walk(self.image, self.memory, file.name).account()

    def judged(self, told):
        """The Verdict of a run that ends badly; Differs where it isn't so."""
        log = write_log(told.log)
        account = self.walked(log)
        self.compare(told.account, account)
        ended = Ended(account)
        if not ended.meets(self.condition, self.is_cut or told.leaf != "goes-on"):
            raise Differs("the account of the walk doesn't meet the condition")
        looped = 0
        if told.leaf in ("waits", "repeats"):
            for thread in sorted(told.loops):
                self.walk_loop(told, ended, thread)
                looped += 1
        return Verdict(ended, looped, log)

    @staticmethod
    def compare(expected, account):
        if expected == account:
            return
        ours, theirs = expected.split(b"\n"), account.split(b"\n")
        for place, (mine, its) in enumerate(zip(ours, theirs), 1):
            if mine != its:
                raise Differs("line %d of the account: the walk has '%s', the engine '%s'" % (place, its.decode(), mine.decode()))
        if len(ours) != len(theirs):
            raise Differs("the walk's account has %d lines, and the engine's %d" % (len(theirs), len(ours)))

    def walk_loop(self, told, ended, thread):
        loop = told.loops[thread]
        if loop is None:
            raise Differs("thread %d doesn't come back to where it is" % thread)
        self.after(told, ended, thread, loop)
        if told.leaf == "waits":
            for count in range(1, min(len(loop), MOST_WALKS)):
                self.after(told, ended, thread, loop[:count], whole=False)

    def after(self, told, ended, thread, commits, whole=True):
        """The state after these commits of the thread must be that at the end; but for the thread itself, where they aren't
        its whole loop."""
        log = told.log
        longer = log._replace(count=log.count + len(commits), order=log.order + [thread] * len(commits),
                              sizes=log.sizes + [size for size, _ in commits],
                              inputs=log.inputs + [answer for _, answer in commits if answer])
        state = Ended(self.walked(write_log(longer)))
        mine = ("t %d " % thread, "h %d " % thread)
        def left(lines):
            return [line for line in lines if whole or not line.startswith(mine)]
        if not state.is_complete or left(state.state) != left(ended.state):
            raise Differs("thread %d doesn't come back to where it is, after %d commits" % (thread, len(commits)))


def switches_of(order):
    """How often another actor commits next."""
    return sum(1 for before, after in zip(order, order[1:]) if before != after)
