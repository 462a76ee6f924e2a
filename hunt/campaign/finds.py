"""A find as shrink takes a log: `FindJob(..)` is what lib/recording.py and lib/aims.py ask of a Job."""

from types import SimpleNamespace

from lib.engine import Engine, Options
from lib.judge import Judge

STEPS = 1_000_000  # after a log's end, as shrink has it


class FindJob:
    """sphere: the plan's table of it. condition: cases, as conditions.py has them. seed: of the random bytes. log: a Log."""

    def __init__(self, sphere, image, condition, input_name, seed, log):
        self.given = SimpleNamespace(image=sphere["image"], memory=str(sphere["memory"]), steps=STEPS)
        self.image, self.condition = image, condition
        self.options = Options(seed, input_name, version=log.version, threads=log.threads)
        self.judge = Judge(self.given.image, self.given.memory, condition)

    def engine(self, answers=(), dmas=(), condition=None):
        return Engine(self.image, self.condition if condition is None else condition, self.options, answers, dmas)

    def allow_steps(self, steps):
        """The limit of steps is met so much later."""
        self.options = self.options._replace(steps=STEPS + steps)
