"""Whether a run whose threads are live hangs: `Hangs(..).of(log, account, seed)` goes on from its end by the search's engine.

The engine isn't to be believed. So what it says is walked: the log, gone on with to where no thread goes on, and from there the
loop of each thread that is live."""

from collections import namedtuple
import functools

from lib import engine
from lib.conditions import read_condition
from lib.engine import EXACTLY, NoEngine
from lib.judge import Differs, Judge
from lib.logs import read_log
from lib.recording import Recording

from .finds import FindJob

HANG = read_condition(["hang"], None)
ANY_END = [[]]

# ended: what the account of the hang tells. log: its bytes. is_own: whether the run itself had come so far. is_for_ever: whether
# more events change nothing either: no thread goes on in any order, and no interrupt, no DMA and no input can come.
Hang = namedtuple("Hang", "ended log is_own is_for_ever")


class Walks(Judge):
    """A Judge that walks by a Runner, and a log that it has just walked only once."""

    def __init__(self, runner, image, memory, condition):
        super().__init__(image, memory, condition)
        self.runner, self.last = runner, (None, None)

    def of(self, condition):
        other = Walks(self.runner, self.image, self.memory, condition)
        other.last = self.last
        return other

    def walked(self, log):
        if log != self.last[0]:
            self.last = log, self.runner.walk_bytes(self.image, self.memory, log)
        return self.last[1]


class Hangs:
    """sphere: the plan's table of it. image: an Image. input_name: of the plan's input, or None. runner: that walks."""

    def __init__(self, sphere, image, input_name, runner):
        self.sphere, self.image, self.input_name, self.runner = sphere, image, input_name, runner
        self.known = None, None  # the last log with its seed, and its Hang
        engine.built = functools.cache(engine.built)  # which looks at all sources of the engine

    def of(self, data, account, seed):
        """The Hang of a run's log, or None if threads go on, or if there is no engine. The log's walk must have this account."""
        if self.known[0] != (data, seed):
            self.known = (data, seed), self.found(data, account, seed)
        return self.known[1]

    def found(self, data, account, seed):
        job = FindJob(self.sphere, self.image, HANG, self.input_name, seed, read_log(data))
        job.judge = Walks(self.runner, job.given.image, job.given.memory, HANG)
        if job.judge.walked(data) != account:
            raise Differs("the walk of the log has another account than the run")
        try:
            recording = Recording(job, data)
        except NoEngine:
            return None
        if recording.leaf not in ("waits", "repeats"):
            return None
        before, after = recording.at_log_end, recording.at_end
        is_own = (before.threads, before.rows) == (after.threads, after.rows)
        return Hang(after, data if is_own else gone_on(job, recording), is_own, is_own and self.is_for_ever(recording))

    def is_for_ever(self, recording):
        lines = [line.split() for line in recording.at_log_end.state]
        can_be_interrupted = any(words[0] == "t" and words[3] == "live" and int(words[4], 16) for words in lines)
        return (recording.leaf == "waits" and self.input_name is None and not can_be_interrupted
                and not any(words[0] == "d" for words in lines))


def gone_on(job, recording):
    """The bytes of the log up to where no thread goes on."""
    with job.engine(recording.answers, recording.dmas, []) as engine:
        told = engine.told(recording.turns, EXACTLY)[1]
    return job.judge.of(ANY_END).judged(told).log
