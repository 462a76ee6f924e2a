"""What search and shrink have in common: words, files, and the end, where a log is judged and written."""

from pathlib import Path
import re

from .account import NotWalked
from .conditions import BadCondition, overrun, read_condition
from .engine import DMA as DMA_TURN
from .engine import Engine, Options
from .image import NotAnImage, read_image
from .judge import Differs, Judge, switches_of
from .layout import stacks_of
from .manners import NoOutput, try_output
from .symbols import Names, NoWord
from .why import explained

CONDITIONS = """\
  exit THREAD = CODE        the thread has ended with the code; or != < > <= >=. THREAD is a number, or any
  fault [THREAD [= CAUSE]]  it has faulted
  hang [THREAD]             it never ends: neither it nor any other thread goes on
  stuck [THREAD]            it never ends, in whatever order: no thread goes on, or those that do go round without an end
  word WORD = VALUE         at the end the word has the value; WORD is a symbol or an address, with +OFFSET or without
  ever word WORD = VALUE    the same at some moment, for example ever word count < 0, or ever word a = 1 and word b = 1
  overrun                   at some moment a thread has run over its stack; of an image of sdk/cc, and counted in any search of one
  console = TEXT            what was put on the console; or !=
  console has TEXT          TEXT is a word of the shell, with \\n and \\xHH in it
Several of them may be joined by `and`; of several --bad one is enough."""


class Refused(Exception):
    """What was given won't do; args: why."""


def add_common(parser, with_log=False):
    parser.add_argument("image", metavar="IMAGE")
    parser.add_argument("memory", metavar="MEMORY", help="bytes of memory, as walk takes them")
    if with_log:
        parser.add_argument("log", metavar="LOG", help="the log that ends badly")
    else:
        parser.add_argument("--log-version", type=int, choices=(1, 2), default=1, help="of the log; 2 has up to 63 threads (1)")
    parser.add_argument("--bad", action="append", required=not with_log, metavar="CONDITION", help="what a bad end is, below")
    parser.add_argument("--out", required=True, metavar="LOG", help="the log to be written")
    parser.add_argument("--seed", type=int, default=0, metavar="N", help="of the random bytes, as a plan's (0)")
    parser.add_argument("--input", metavar="FILE", help="the devices' input")
    parser.add_argument("--tick", type=int, default=64, metavar="N", help="what the clock goes on by when it is read (64)")
    parser.add_argument("--turn", type=int, default=10_000, metavar="N",
                        help="another thread comes, for nothing, where one has done so many steps (10000)")
    parser.add_argument("--steps", type=int, default=1_000_000, metavar="N", help="a run is left after so many (1000000)")


def counted(number, what):
    noun, _, rest = what.partition(" ended")
    ending = "" if number == 1 else "es" if noun.endswith("ch") else "s"
    return "%d %s%s" % (number, noun + ending, " ended" + rest if rest else "")


def ends_of(ended):
    """A line for each thread."""
    for thread, (status, code) in enumerate(ended.threads):
        yield "thread %d %s" % (thread, {"live": "is live", "ended": "ended with %d" % code,
                                         "fault": "faulted, cause %d" % code}[status])


def read_raise(text):
    match = re.fullmatch(r"(\d{1,2}):(0x[0-9A-Fa-f]{1,8}|\d{1,10})", text)
    if not match:
        raise Refused("--raise %s isn't THREAD:VALUE" % text)
    return int(match[1]), int(match[2], 0)


class Job:
    """Image, condition and options of the words that were given. overrun: the case that a stack is run over, or None if the image doesn't
    say where its stacks are."""

    def __init__(self, given, minds_stacks=False):
        """minds_stacks: the condition has this case too."""
        self.given = given
        try:
            try_output(given.out)
        except NoOutput as error:
            raise Refused(error.args[0]) from None
        if not re.fullmatch(r"[1-9][0-9]{3,7}", given.memory) or int(given.memory) % 4096 or int(given.memory) > 1 << 24:
            raise Refused("MEMORY is a multiple of 4096 up to 16777216")
        try:
            self.image = read_image(Path(given.image).read_bytes(), int(given.memory))
            if given.input:
                Path(given.input).read_bytes()
        except OSError as error:
            raise Refused("%s: %s" % (error.filename, error.strerror)) from None
        except NotAnImage as error:
            raise Refused("refused image 0 %d" % error.args) from None
        try:
            names = Names(self.image)
            self.condition = read_condition(given.bad or [], names)
        except NoWord as error:
            raise BadCondition("%s: %s" % error.args) from None
        self.overrun = overrun(names) if stacks_of(names) else None
        if minds_stacks and self.overrun:
            self.condition.append(self.overrun)
        raises = tuple(map(read_raise, getattr(given, "raises", ())))
        self.options = Options(given.seed, given.input, given.tick, given.turn, given.steps, raises, given.log_version,
                               getattr(given, "log_threads", None), getattr(given, "all_places", False))
        self.judge = Judge(given.image, given.memory, self.condition)

    def engine(self, answers=(), dmas=(), condition=None):
        return Engine(self.image, self.condition if condition is None else condition, self.options, answers, dmas)

    def allow_steps(self, steps):
        """The limit of steps is met so much later."""
        self.options = self.options._replace(steps=self.given.steps + steps)

    def is_overrun(self, ended):
        """Whether an Ended is of a moment at which a thread's sp is below its stack."""
        return self.overrun is not None and ended.meets([self.overrun], False)

    def write(self, told):
        """Has the run judged, writes its log, and says what it is. The Ended of its walk."""
        try:
            verdict = self.judge.judged(told)
        except NotWalked as error:
            raise Refused("the walk failed: %s" % error.args[0]) from None
        try:
            Path(self.given.out).write_bytes(verdict.log)
        except OSError as error:
            raise Refused("%s: %s" % (error.filename, error.strerror)) from None
        is_hang = told.leaf in ("waits", "repeats")
        why = explained(self.given.image, self.given.memory, verdict.log, is_hang)
        print("\n".join([*self.summary(told, verdict), *why]))
        return verdict.ended

    def summary(self, told, verdict):
        log = told.log
        pairs = [(turn, after) for turn, after in zip(told.turns, told.turns[1:]) if turn.actor != after.actor]
        forced = sum(turn.end == "forced" and after.actor < DMA_TURN for turn, after in pairs)
        counts = [counted(log.count, "commit"), "%s, %d forced" % (counted(switches_of(log.order), "switch"), forced)]
        cut = sum(turn.end == "forced" and turn.actor == after.actor for turn, after in zip(told.turns, told.turns[1:]))
        others = (cut, "chunk ended early"), (len(log.interrupts), "interrupt"), (len(log.dmas), "DMA")
        counts += [counted(n, what) for n, what in others if n]
        yield "%s: %s; walked" % (self.given.out, ", ".join(counts))
        yield from ends_of(verdict.ended)
        if told.leaf == "waits":
            yield "no thread goes on, in whatever order: the loop of each that is live was walked, and changes nothing"
        if told.leaf == "repeats":
            yield "the state comes again: the loop of each that is live was walked, and leads back to it"
        if told.leaf == "goes-on":
            yield "others could go on; " + ("it is so where the log ends" if self.judge.is_cut else "that changes nothing of this")
