"""The search's engine, a program in C that is built on first use: `Engine(image, options)` starts one.

It searches orders of commits (`search`) and does runs that a list of turns leads (`guided`, `told`). What it finds comes back
as turns, and as a Told: a log and the account that the engine expects of it. Nothing here is to be believed: judge.py has
each log walked by the proved program, and compares.
"""

from collections import namedtuple
from contextlib import suppress
import hashlib
import os
from pathlib import Path
import shutil
import signal
import struct
import subprocess
import tempfile

from .conditions import KINDS
from .image import section
from .logs import ORDER_SIZE, Input, Log

SOURCES = Path(__file__).resolve().parent.parent / "engine"
FLAGS = ("-std=c11", "-O2", "-pthread")
DMA, RAISE = 127, 128  # actors of turns beside threads; an interrupt has its thread as `steps`
WHOLE = (1 << 62)      # steps of a turn that goes on until its thread ends or waits
FREELY, EXACTLY, AGAIN = range(3)  # how a list of turns leads a run; guide.h says what they are
TO_ITS_END, TO_LAST_TURN = range(2)
STRATEGIES = ("pct", "random")  # by which orders are drawn; chance.h says what they are
ENDS = ("forced", "stopped", "waits", "spent")  # of turns
ON_ITS_WAY = ("bound", "progress", "saved", "unsaved", "resumed", "damaged")  # lines of a search before its end

# actor: a thread, DMA, or RAISE and more. end: forced, stopped (the thread ended), waits, or spent (its steps were over).
Turn = namedtuple("Turn", "actor steps value end")
# leaf: ended, waits (no thread ever goes on), repeats (each one alone comes back to this state), or goes-on. loops: of each
# thread that is live its commits until it is back in this state, as (size, Input or None), or None. answers: (thread, Input).
Told = namedtuple("Told", "leaf turns log account loops answers")
Bound = namedtuple("Bound", "bound tries states places shared seconds")
# how: found, bound (all up to the greatest bound are done), all (there are no more orders), tries, seconds or states (a limit was
# met), or stopped (by Ctrl-C). ends: the different ends that were met, if the engine was made to collect them.
Search = namedtuple("Search", "how bounds tries ended hung limited places bound told ends")
# Of runs whose order was drawn. how: found, tries or seconds (a limit was met), or stopped. alike, actors, points, spent: as chance.h
# has them. limited: runs that were left at the limit of steps. told, ends: as in Search.
Drawn = namedtuple("Drawn", "strategy depth how tries alike actors points spent limited ended hung told ends")
# memory: the bytes asked for. threads: (status, code) of each; status 0 is live, 1 ended, 2 faulted. forced: the fewest switches.
End = namedtuple("End", "memory threads forced")
# threads: the most that there may be, or None for as many as the version has. all_places: threads may come before any access to a
# shared word.
Options = namedtuple("Options", "seed input tick turn steps raises version threads all_places",
                     defaults=(0, None, 64, 10000, 1000000, (), 1, None, False))


class NoEngine(Exception):
    """There is none, or it failed; args: why."""


def cache_folder():
    base = os.environ.get("XDG_CACHE_HOME") or os.path.join(os.path.expanduser("~"), ".cache")
    return Path(base) / "delorean-hunt"


def built():
    """The engine's program, built by the C compiler ($CC, or cc) where this version of its sources wasn't yet."""
    compiler = os.environ.get("CC", "cc")
    if shutil.which(compiler) is None:
        raise NoEngine("the search wants a C compiler, and there is no %s" % compiler)
    sources = sorted(SOURCES.glob("*.[ch]"))
    key = hashlib.sha256(b"\0".join([compiler.encode(), *[s.read_bytes() for s in sources]])).hexdigest()[:24]
    program = cache_folder() / ("engine-" + key)
    if not program.exists():
        program.parent.mkdir(parents=True, exist_ok=True)
        with tempfile.TemporaryDirectory(dir=program.parent) as scratch:
            fresh = Path(scratch) / "engine"
            made = subprocess.run([compiler, *FLAGS, "-o", fresh, *[s for s in sources if s.suffix == ".c"]],
                                  capture_output=True, text=True)
            if made.returncode != 0:
                raise NoEngine("the engine wasn't built: " + made.stderr.strip())
            fresh.replace(program)
    return program


def acquires(image):
    """The addresses of the instructions that the image marks as those that take a lock."""
    marks = section(image.file, b".delorean.acquires")
    return [pc for (pc,) in struct.iter_unpack("<I", marks[:len(marks) // 4 * 4]) if 0 < pc < image.size]


def hexed(data):
    return data.hex().upper() or "-"


def atom_lines(condition):
    for case in condition:
        for place, a in enumerate(case):
            begins = int(place == 0)
            yield "atom %d %d %d %d %d %d %s" % (begins, KINDS.index(a.kind), a.comparison, a.thread, a.value, a.address,
                                                 hexed(a.text))


class Engine:
    def __init__(self, image, condition, options, answers=(), dmas=()):
        self.options = options
        self.process = subprocess.Popen([built()], stdin=subprocess.PIPE, stdout=subprocess.PIPE)
        with tempfile.NamedTemporaryFile(prefix="memory-") as memory:
            memory.write(image.memory)
            memory.flush()
            self.send(*self.setup_lines(image, memory.name), *atom_lines(condition))
            self.send(*("answer %d %d %x %s" % (t, a.kind, a.result, hexed(a.bytes)) for t, a in answers))
            self.send(*("dma " + hexed(data) for data in dmas))
            self.send("ready")
            self.line()

    def setup_lines(self, image, name):
        o = self.options
        yield "memory %d %d %s" % (image.size, image.entry, name)
        yield "threads %d" % self.most_threads()
        yield "standard %d" % self.standard()
        yield "seed %d" % o.seed
        yield "tick %d" % o.tick
        yield "turns %d" % o.turn
        yield "steps %d" % o.steps
        if o.input:
            yield "input %s" % Path(o.input).resolve()
        yield from ("raise %d %x" % raised for raised in o.raises)
        if o.all_places:
            yield "all-places"
        else:
            yield from ("acquire %x" % pc for pc in acquires(image))

    def most_threads(self):
        return self.options.threads or (15 if self.options.version == 1 else 63)

    def standard(self):
        return 4096 if self.options.version == 1 else 65536

    def close(self):
        with suppress(BrokenPipeError):
            self.process.stdin.close()
        self.process.wait()
        self.process.stdout.close()

    def __enter__(self):
        return self

    def __exit__(self, kind, *_):
        if kind is not None:
            self.process.kill()
        self.close()

    def send(self, *lines):
        try:
            self.process.stdin.write("".join(line + "\n" for line in lines).encode())
            self.process.stdin.flush()
        except BrokenPipeError:
            pass  # what it said is read next

    def line(self):
        """The words of the engine's next line."""
        words = self.process.stdout.readline().decode().split()
        if not words or words[0] == "failed":
            raise NoEngine("the engine failed: " + " ".join(words[1:]))
        return words

    def text(self, words):
        return self.process.stdout.read(int(words[2])).decode()

    # ------------------------------------------------------------ what it does

    def search(self, switches, tries, states, seconds, on_bound=lambda bound: None, on_line=None):
        """on_line: called with the words of lines on its way, which `progress` and `save` bring."""
        before = signal.signal(signal.SIGINT, lambda *_: self.process.send_signal(signal.SIGINT))
        try:
            self.send("search %d %d %d %f" % (switches, tries, states, seconds))
            return self.read_search(on_bound, on_line)
        finally:
            signal.signal(signal.SIGINT, before)

    def drawn(self, strategy, depth, seed, tries, seconds):
        """Runs whose order is drawn, until one ends badly: by a strategy of STRATEGIES."""
        before = signal.signal(signal.SIGINT, lambda *_: self.process.send_signal(signal.SIGINT))
        try:
            self.send("chance %d %d %d %d %f" % (STRATEGIES.index(strategy), depth, seed, tries, seconds))
            return self.read_drawn(strategy, depth)
        finally:
            signal.signal(signal.SIGINT, before)

    def read_drawn(self, strategy, depth):
        ends, words = self.read_ends(self.line())
        counts = map(int, words[1:])
        told, words = self.read_find()
        return Drawn(strategy, depth, words[1], *counts, told, ends)

    def read_ends(self, words):
        """The ends that were met, and the words of the line after them."""
        ends = []
        while words[0] == "met":
            ends.append(read_end(words))
            words = self.line()
        return ends, words

    def read_find(self):
        """The Told of a run that ends badly, or None, and the words of the last line."""
        words, told = self.line(), None
        if words[0] == "leaf":
            told = self.read_told(words)
            words = self.line()
        return told, words

    def read_search(self, on_bound, on_line):
        bounds = []
        while (words := self.line())[0] in ON_ITS_WAY:
            if words[0] == "bound":
                bounds.append(Bound(*map(int, words[1:10:2]), float(words[11])))
                on_bound(bounds[-1])
            else:
                on_line(words)
        ends, words = self.read_ends(words)
        tries, ended, hung, limited, places, bound, _ = map(int, words[1:])
        told, words = self.read_find()
        return Search(words[1], bounds, tries, ended, hung, limited, places, bound, told, ends)

    def collect_ends(self, address, length):
        """From now on searches tell the different ends that they meet, each with these bytes of memory."""
        self.send("ends %d %d" % (address, length))

    def lead(self, turns, word):
        self.send(*("turn %d %d %x %d" % (t.actor, t.steps, t.value, ENDS.index(t.end)) for t in turns), word)

    def read_turns(self):
        turns = []
        while (words := self.line())[0] == "turn":
            turns.append(self.read_turn(words))
        return turns

    def guided(self, turns, manner=FREELY, until=TO_ITS_END):
        """(outcome, turns): bad, good, or limited, and the turns that were taken."""
        self.lead(turns, "guide %d %d" % (manner, until))
        return self.line()[1], self.read_turns()

    def without_idle_steps(self, turns):
        """The turns, taken exactly, without steps that lead their thread back to where it was and change nothing."""
        self.lead(turns, "without-idle-steps")
        return self.read_turns()

    def told(self, turns, manner=FREELY, until=TO_ITS_END):
        """(outcome, Told)."""
        self.lead(turns, "tell %d %d" % (manner, until))
        outcome = self.line()[1]
        told = self.read_told(self.line())
        self.line()
        return outcome, told

    # ------------------------------------------------------------ what it says

    @staticmethod
    def read_turn(words):
        return Turn(int(words[1]), int(words[2]), int(words[3], 16), words[4])

    def read_told(self, words):
        leaf, turns, interrupts, texts, loops = words[1], [], {}, {}, {}
        words = self.line()
        while words[0] == "turn":
            turns.append(self.read_turn(words))
            words = self.line()
        while len(texts) < 4:
            if words[0] == "text":
                texts[words[1]] = self.text(words)
            else:
                interrupts[int(words[1]), int(words[2])] = int(words[3], 16)
            words = self.line() if len(texts) < 4 else words
        for _ in range(int(self.line()[1])):
            thread, loop = self.read_loop(self.line())
            loops[thread] = loop
        answers = [read_answer(line) for line in texts["inputs"].splitlines()]
        log = self.read_log(texts, interrupts, [answer for _, answer in answers])
        return Told(leaf, turns, log, texts["account"].encode(), loops, answers)

    def read_log(self, texts, interrupts, answers):
        commits = [line.split()[2:] for line in texts["order"].splitlines()]
        order, sizes = [int(actor) for actor, _ in commits], [int(size) for _, size in commits]
        dmas = [(int(at), bytes.fromhex(data.strip("-"))) for _, at, data in map(str.split, texts["dmas"].splitlines())]
        return Log(self.options.version, self.most_threads(), ORDER_SIZE, self.standard(), len(order), order, sizes, interrupts,
                   answers, dmas)

    @staticmethod
    def read_loop(words):
        if words[-1] == "none":
            return int(words[1]), None
        commits = []
        for word in words[2:]:
            size, *answer = word.split(":")
            commits.append((int(size), Input(int(answer[0]), int(answer[1], 16), b"") if answer else None))
        return int(words[1]), commits


def read_end(words):
    threads = tuple(tuple(map(int, word.split(":"))) for word in words[3:])
    return End(bytes.fromhex(words[2]), threads, int(words[1]))


def read_answer(line):
    _, kind, result, data, thread = line.split()
    return int(thread), Input(int(kind), int(result, 16), bytes.fromhex(data.strip("-")))
