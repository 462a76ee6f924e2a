"""Looks for a failing order of a program: `find(program, limits, tell)`. A program of delorean-cc fails if a thread ends with
another code than 0, if one faults, or if it never ends because no thread goes on."""

from argparse import Namespace
from collections import namedtuple
import os
from pathlib import Path
import subprocess
import time

from .engine import TO_ITS_END
from .image import NotAnImage, read_image
from .judge import switches_of
from .layout import stacks_of
from .overrun import LARGEST, overrun_of
from .reach import reached, words_of
from .searching import Job, Refused
from .shrinking import Shrinker
from .symbols import Names

TOP = Path(__file__).resolve().parent.parent.parent
MOST_SWITCHES, MOST_RUNS, MOST_STATES = 250, 1 << 40, 1 << 25
PAGE, MOST_MEMORY = 4096, 1 << 24
TICK, TURN = 64, 10_000  # as in search
FEW_THREADS = 15  # as many as logs of version 1 have
CLOCKS = {"__past", "clock_gettime", "gettimeofday", "time", "clock", "usleep", "sleep", "nanosleep", "clock_nanosleep", "sleep_for"}
NUMBER_OF_CLOCK, CALL, DEVICES = 0x00500893, 0x00000073, 0xF0000037  # li a7, 5; ecall; lui .., 0xF0000, whose first word is a clock
NEAR, FAR = 8, 64  # instructions up to the call, and up to the load

# image: the path. memory: bytes. threads: how many there may be in all. has_library: whether delorean-cc has linked it. has_clock:
# whether it has code that reads a clock. stacks: where they are, or None if the image doesn't say so.
Program = namedtuple("Program", "image memory threads has_library has_clock stacks", defaults=(False, None))
# switches: at most so many forced ones, or None. seconds: of the search. bad: further conditions. input: a file, or None. strategy: by
# which orders are drawn, with its depth and tries, or None.
Limits = namedtuple("Limits", "switches seconds shrink_seconds bad input seed steps tick strategy depth tries",
                    defaults=(TICK, None, 3, MOST_RUNS))
# status: below. search: as the engine has it, a Search or Drawn. run: a Run, or None. seconds: that the search took. condition: what a
# failure is. tick: what a clock went on by when it was read; None if the program has none. overrun: of a thread that has run over its
# stack, an Overrun; else None.
Finding = namedtuple("Finding", "status search run seconds condition tick overrun", defaults=(None, None))
# log: bytes, that the proved walk has judged. ended: what the walk's account tells. forced: how many forced switches. left: of each
# turn of a thread, the next one's apart, whether it was left by a forced switch. leaf: as in engine.Told.
Run = namedtuple("Run", "log ended forced left leaf commits switches")

FOUND, CLEAR, LIMIT, STOPPED, OVERRUN = "found", "clear", "limit", "stopped", "overrun"


# ---------------------------------------------------------------- programs


def compiler():
    """The words that run delorean-cc: those of DELOREAN_CC, else sdk/cc beside hunt/."""
    return os.environ.get("DELOREAN_CC", str(TOP / "sdk" / "cc")).split()


def compiled(words, image):
    """Compiles by delorean-cc, given its words. Refused with what it says if it can't."""
    try:
        made = subprocess.run([*compiler(), *words, "-o", str(image)], capture_output=True, text=True, errors="replace")
    except OSError as error:
        raise Refused("%s: %s" % (compiler()[0], error.strerror)) from None
    if made.returncode:
        raise Refused("it wasn't compiled\n%s" % (made.stderr + made.stdout).strip())
    return made.stderr.strip()


def read_program(path, memory=None):
    """The Program of an image. Its memory is what it says itself, by the symbol memory_used, if none is given."""
    try:
        image = read_image(Path(path).read_bytes(), memory or MOST_MEMORY)
    except OSError as error:
        raise Refused("%s: %s" % (error.filename, error.strerror)) from None
    except NotAnImage as error:
        raise Refused("%s: refused image 0 %d" % (path, *error.args)) from None
    names = Names(image)
    if memory is None:
        memory = memory_of(names, path)
    return Program(str(path), memory, most_threads(image, names), names.has("__library_code"), reads_clock(image, names),
                   stacks_of(names))


def most_threads(image, names):
    """How many threads there may be at once: the first of the library's `__numbers`."""
    if not names.has("__numbers"):
        return FEW_THREADS
    at = names.value("__numbers")
    return int.from_bytes(image.memory[at : at + 4], "little")


def reads_clock(image, names):
    """Whether there is code that reads a clock, and that can be reached. In an image without the library, it is a call of the kernel by its
    number, or a load of the devices' first word, wherever that is."""
    if names.has("__library_code"):
        return not CLOCKS.isdisjoint(reached(image, names))
    words = words_of(image)
    return any(word == NUMBER_OF_CLOCK and CALL in words[at : at + NEAR] or
               word & 0xFFFFF07F == DEVICES and any(after & 0xFFFFF07F == 0x2003 | (word >> 7 & 31) << 15 for after in words[at : at + FAR])
               for at, word in enumerate(words) if word)


def memory_of(names, path):
    if not names.has("memory_used"):
        raise Refused("%s doesn't say how much memory it needs (it has no symbol memory_used): give --memory" % path)
    return max(PAGE, (names.value("memory_used") + PAGE - 1) // PAGE * PAGE)


# ---------------------------------------------------------------- search


def conditions(program, limits):
    """What a failure is. With the library only thread 0 lasts as long as its program, so others may be left waiting, and any
    thread may end the program with a code. Without it, codes of other threads are their own. What comes after a stack was run over
    means nothing, so such a run is at its end there."""
    own = ["exit any != 0", "stuck 0"] if program.has_library else ["exit 0 != 0", "stuck"]
    return [*own, "fault", *(["overrun"] if program.stacks else []), *limits.bad]


def job_of(program, limits):
    return Job(Namespace(image=program.image, memory=str(program.memory), bad=conditions(program, limits), input=limits.input,
                         seed=limits.seed, out=os.devnull, tick=limits.tick, turn=TURN, steps=limits.steps, raises=[],
                         log_version=1 if program.threads <= FEW_THREADS else 2))


def left_by_force(turns):
    """Of each turn that another thread's comes after, whether its thread could have gone on."""
    return [turn.end == "forced" for turn, after in zip(turns, turns[1:]) if turn.actor != after.actor]


def least(job, told, seconds):
    """The run with as few turns as could be found, as told."""
    with job.engine() as engine:
        shrinker = Shrinker(engine, TO_ITS_END, time.monotonic() + seconds)
        taken = shrinker.shrunk(told.turns)
        return shrinker.told(taken) if taken else told


def judged(job, told, seconds):
    """The Run, made small and then judged by the proved walk."""
    told = least(job, told, seconds)
    verdict = job.judge.judged(told)
    left = left_by_force(told.turns)
    return Run(verdict.log, verdict.ended, sum(left), left, told.leaf, told.log.count, switches_of(told.log.order))


def status_of(result):
    """Whether all that was asked for is covered."""
    if result.how == "stopped":
        return STOPPED
    whole = result.how in ("all", "bound") and not result.limited  # drawn runs never cover anything
    return CLEAR if whole else LIMIT


def searched_by(engine, limits, tell):
    if limits.strategy:
        return engine.drawn(limits.strategy, limits.depth, limits.seed, limits.tries, limits.seconds)
    switches = MOST_SWITCHES if limits.switches is None else limits.switches
    return engine.search(switches, MOST_RUNS, MOST_STATES, limits.seconds, tell)


def find(program, limits, tell=lambda bound: None):
    """The Finding. `tell` is called with each Bound that is done."""
    job, started = job_of(program, limits), time.monotonic()
    with job.engine() as engine:
        result = searched_by(engine, limits, tell)
    searched, tick = time.monotonic() - started, limits.tick if program.has_clock else None
    if result.told is None:
        return Finding(status_of(result), result, None, searched, conditions(program, limits), tick)
    run = judged(job, result.told, limits.shrink_seconds)
    over = overrun_of(program, run) if job.is_overrun(run.ended) else None
    status = OVERRUN if over and program.stacks.others < LARGEST else FOUND
    return Finding(status, result, run, searched, conditions(program, limits), tick, over)
