"""What a log's or a tail's play did, checked against the account of the proved program: `open_trace(image, memory, log)`."""

from bisect import bisect_left, bisect_right
from collections import namedtuple
from pathlib import Path
import sys
import tempfile

from . import isa
from .account import Walk, compare
from .frames import Frames
from .image import NotAnImage, read_image
from .logs import DMA, ORDER_SIZE, Malformed, read_log, write_log
from .machine import NO_PC, Machine, Thread
from .play import play
from .symbols import Names
from .tails import is_tail, read_tail

# Who acts: thread (or DMA), and handler: 0, or which of the thread's interrupts (from 1).
Context = namedtuple("Context", "thread handler")


def context_name(context):
    if context.thread == DMA:
        return "dma"
    return "thread %d" % context.thread + (", interrupt %d" % context.handler if context.handler else "")


class Trace:
    """commits: a list of Commit. accesses: all Accesses in order. pcs: the pc of each step. machine: as it is at the end. image: its
    memory is that before the first commit. tail: the Tail that was played, or None. base: the first commit's number in accounts.
    longer: as `longer(commits)` it is the Trace of a longer log, walked and compared like this one, where commits are (thread,
    size, Input or None); None if nothing was walked. atomic: addresses of words that count as atomic. naming: what naming.py keeps."""

    longer, atomic, naming = None, (), None

    def __init__(self, image, log, played, tail=None):
        self.image, self.log, self.end = image, log, played.end
        self.tail, self.base = tail, tail.base if tail else 0
        self.commits, self.machine = played.commits, played.machine
        self.accesses, self.pcs = played.machine.accesses, played.machine.pcs
        self.names = Names(image)
        self.steps = len(self.pcs)
        self._firsts = [c.first for c in self.commits]
        self._words = None
        self._of_thread = None
        self._of_context = None
        self._frames = None

    @property
    def frames(self):
        """Who calls whom in the image."""
        if self._frames is None:
            self._frames = Frames(self.image)
        return self._frames

    def begun(self):
        """Of what was so before the first commit: when that was."""
        return "before commit %d" % self.base if self.base else "at first"

    # ------------------------------------------------------------ steps and commits

    def commit_of(self, step):
        """The commit that a step is in."""
        return self.commits[bisect_right(self._firsts, step) - 1]

    def context(self, commit):
        return Context(commit.actor, commit.handler)

    def contexts(self):
        """All that act, in the order of threads."""
        return sorted({self.context(c) for c in self.commits})

    def accesses_of(self, commit):
        return self.accesses[commit.first_access : commit.last_access]

    def commits_of(self, context, number):
        """The commits of a context, from this number on."""
        if self._of_context is None:
            self._of_context = {}
            for commit in self.commits:
                self._of_context.setdefault(self.context(commit), []).append(commit)
        mine = self._of_context.get(context, [])
        return mine[bisect_left(mine, number, key=lambda commit: commit.number) :]

    # ------------------------------------------------------------ words

    @property
    def words(self):
        """For each word that was accessed, by its address: the indices of its accesses, in order."""
        if self._words is None:
            self._words = words = {}
            for j, a in enumerate(self.accesses):
                words.setdefault(a.addr & ~3, []).append(j)
        return self._words

    def of_word(self, addr):
        """The accesses of a word, in order, as (Commit, Access)."""
        return [(self.commit_of(a.step), a) for a in map(self.accesses.__getitem__, self.words.get(addr & ~3, ()))]

    def first_value(self, addr):
        """What a word was before the first commit."""
        return int.from_bytes(self.image.memory[addr & ~3 : (addr & ~3) + 4], "little")

    def is_blind(self, access):
        """Whether it stores without a look at what was there: so does an exchange that drops it, which is how compilers make an
        atomic store."""
        is_dropped = access.kind == isa.SWAP and not self.value_before(access.pc, access.step) >> 7 & 31
        return is_dropped or access.kind in (isa.STORE, isa.COPY, isa.DMA)

    def is_look(self, access):
        """Whether it gives its thread, or the kernel for it, what is in the memory."""
        return access.kind in isa.LOADS and not self.is_blind(access)

    def value_before(self, addr, step):
        """What a word was before a step."""
        indices = self.words.get(addr & ~3, ())
        j = bisect_left(indices, step, key=lambda index: self.accesses[index].step)
        return self.accesses[indices[j - 1]].new if j else self.first_value(addr)

    # ------------------------------------------------------------ threads at a moment

    def thread_at(self, k, number):
        """Registers of thread k before commit `number`, or at the end if that is the number of commits. None if there is no
        such thread yet."""
        if self._of_thread is None:
            self._of_thread = {}
            for c in self.commits:
                self._of_thread.setdefault(c.actor, []).append(c.number)
        mine = self._of_thread.get(k, ())
        if k >= self.threads_at(number):
            return None
        j = bisect_right(mine, number - 1)
        return self.commits[mine[j]].before if j < len(mine) else self.machine.threads[k].save()

    def threads_at(self, number):
        """How many threads there are before commit `number`."""
        return self.commits[number].threads if number < len(self.commits) else len(self.machine.threads)


class Moment:
    """The machine as it was before a step. `moment = Moment(trace)`, then `moment.seek(step)`, forwards or back;
    `moment.machine` has memory and threads, and `moment.commit` is the commit that the step is in (None at the end). The
    machine's own pcs and accesses have no meaning."""

    def __init__(self, trace):
        self.trace, self.step, self.done = trace, 0, 0  # done: how many accesses are in the memory
        self.machine = Machine(trace.image, trace.log.threads)
        self.commit = None
        self.seek(0)

    def seek(self, step):
        """Goes to before this step, from 0 to the number of steps."""
        trace = self.trace
        step = max(0, min(step, trace.steps))
        is_end = step == trace.steps
        self.commit = None if is_end else trace.commit_of(step)
        self._memory_to(len(trace.accesses) if is_end else self.commit.first_access)
        number = len(trace.commits) if is_end else self.commit.number
        machine = self.machine
        machine.threads = [Thread.of(trace.thread_at(k, number)) for k in range(trace.threads_at(number))]
        machine.request = trace.machine.request if is_end else self.commit.request
        del machine.accesses[:], machine.pcs[:]
        if not is_end and step > self.commit.first:  # only chunks have more than one step
            machine.run(self.commit.actor, step - self.commit.first)
            self.done += len(machine.accesses)
        self.step = step

    def advance(self, step):
        """Goes on to a later step of the same commit, at the cost of the steps between."""
        before = len(self.machine.accesses)
        self.machine.run(self.commit.actor, step - self.step)
        self.done += len(self.machine.accesses) - before
        self.step = step

    def _memory_to(self, count):
        words, accesses = self.machine.words, self.trace.accesses
        while self.done < count:
            a = accesses[self.done]
            if a.old != a.new:
                words[a.addr >> 2] = a.new
            self.done += 1
        while self.done > count:
            self.done -= 1
            a = accesses[self.done]
            if a.old != a.new:
                words[a.addr >> 2] = a.old

    def thread(self):
        """The thread whose step is next; None before a DMA and at the end."""
        return None if self.commit is None or self.commit.actor == DMA else self.commit.actor

    def step_forward(self):
        self.seek(self.step + 1)

    def step_back(self):
        self.seek(self.step - 1)


class NotRead(Exception):
    """A file isn't there, or isn't what it should be. args: in words."""


def memory_size(text):
    """The bytes of memory that MEMORY means."""
    size = int(text) if str(text).isdecimal() else 0
    if size % 4096 or not 4096 <= size <= 1 << 24:
        raise NotRead("MEMORY is a multiple of 4096 from 4096 to 16777216")
    return size


def open_trace(image, memory, log, account=None):
    """The Trace of files, played and compared with the account of the proved program's walk, or with the file `account`.
    Raises NotWalked if that program refuses the files, NotRead if this one does, Differs if the accounts aren't the same."""
    size = memory_size(memory)
    walk = None if account else Walk(image, size, log, begins_tail(log))
    try:
        loaded = read_image(Path(image).read_bytes(), size)
        read, tail = _read(Path(log).read_bytes())
        text = Path(account).read_bytes() if account else None
    except (OSError, NotAnImage, Malformed) as error:
        if walk:
            walk.account()  # refuses it in the program's own words
        raise NotRead(_in_words(error)) from error
    loaded = _at_base(loaded, tail) if tail else loaded
    played = play(loaded, read, tail)
    compare(played, walk.account() if walk else text)
    trace = Trace(loaded, read, played, tail)
    if walk:
        trace.longer = lambda commits: _longer(image, memory, trace, commits)
    return trace


def begins_tail(name):
    try:
        with open(name, "rb") as file:
            return is_tail(file.read(4))
    except OSError:
        return False


def _read(data):
    """(Log, Tail or None) of a file's bytes."""
    tail = read_tail(data) if is_tail(data) else None
    return (tail.log, tail) if tail else (read_log(data), None)


def _at_base(image, tail):
    """The image with the memory that a tail begins with."""
    if len(tail.memory) != image.size:
        raise NotRead("MEMORY is %d, and the tail's memory has %d bytes" % (image.size, len(tail.memory)))
    return image._replace(memory=tail.memory)


def doubted(command, trace):
    """Says on standard error what is to be doubted of all that is told of a trace. Gives the command's status: 0, or 1 if there is any."""
    doubts = []
    if trace.end[0] != "complete":
        doubts.append("the log leaves the program at commit %d, reason %d: all this is of the commits before. Is the image that with "
                      "which the log was recorded?" % trace.end[1:3])
    if trace.tail and not _has_code(trace):
        doubts.append("the tail has other instructions than the image, so names and lines may be wrong. Is the image that with which "
                      "it was recorded?")
    for doubt in doubts:
        print("%s: %s" % (command, doubt), file=sys.stderr)
    return 1 if doubts else 0


def _has_code(trace):
    """Whether what was executed first is the image's. Programs may change their instructions later."""
    memory = read_image(trace.image.file, trace.image.size).memory
    return all(trace.first_value(pc) == int.from_bytes(memory[pc : pc + 4], "little") for pc in set(trace.pcs) - {NO_PC})


def _longer(image, memory, trace, commits):
    log = trace.log
    order = [c.actor for c in trace.commits] + [k for k, _, _ in commits]
    sizes = [c.size for c in trace.commits] + [size for _, size, _ in commits]
    inputs = log.inputs + [answer for _, _, answer in commits if answer]
    longer = log._replace(mode=ORDER_SIZE, count=len(order), order=order, sizes=sizes, inputs=inputs)
    with tempfile.NamedTemporaryFile(prefix="longer-", suffix=".log") as file:
        file.write((trace.tail.head if trace.tail else b"") + write_log(longer))
        file.flush()
        return open_trace(image, memory, file.name)


def _in_words(error):
    if isinstance(error, OSError):
        return "%s: %s" % (error.filename, error.strerror)
    if isinstance(error, NotAnImage):
        return "refused image 0 %d" % error.args
    return "refused log 0 %d %d" % error.args
