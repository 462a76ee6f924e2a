"""The play of a log: its commits, one after another, on a machine. `play(image, log)` gives the whole Played, and
`play(image, tail.log, tail)` that of a tail, whose memory is the image's; a Player does one commit at a time."""

from collections import namedtuple
import gc

from .logs import DMA, ORDER_SIZE, PICOLOG
from .machine import Machine, Thread, fits

CHUNK, SERIAL, TRANSFER = "chunk", "serial", "dma"
NO_THREAD, SHORT, NOT_SERIAL, INPUT, INTERRUPT, BAD_DMA, SIZE_OF_SERIAL, LEFT_OVER = range(1, 9)

# One commit. number: from 0. told: its number in accounts, which for a tail is higher by the tail's base. actor: a thread, or DMA. handler: 0, or which interrupt of the thread (from 1) is being handled.
# kind: chunk, serial or dma. size: its instructions as an account tells them (0 except for a chunk). first, last: its steps
# are those from first to below last; first_access, last_access: its accesses likewise. before: the thread's Registers at the
# beginning (None for a DMA). served: what a serial step did. raised: the value of an interrupt that came after it, or None.
# threads, request: the number of threads, and the outstanding DMA, before it.
Commit = namedtuple("Commit", "number told actor handler kind size first last first_access last_access before served raised"
                    " threads request")
# end: ("complete", commits) or ("diverged", commits, reason, ..).
Played = namedtuple("Played", "commits machine end")


# What a commit begins with, and what an undone one goes back to.
_Start = namedtuple("_Start", "steps accesses threads request before")


class _Leaves(Exception):
    """args: the reason why the next commit isn't as logged, and its numbers."""


class Player:
    """`end` is None until the play has ended; `step` does one more commit."""

    def __init__(self, image, log, tail=None):
        self.log, self.machine, self.commits, self.end = log, Machine(image, log.threads), [], None
        self.base, self.last = 0, None  # last: the last thread that committed
        self.inputs = self.dmas = self.raised = self.sized = 0
        self.slots = {slot for slot, _ in log.dmas}
        if tail:
            self.begin_at(tail)
        if self.end is None:
            self.look()

    def begin_at(self, tail):
        """Takes the state in which a tail begins, with the interrupts that came right then."""
        self.base, self.last, self.machine.request = tail.base, tail.last, tail.request
        self.machine.threads = [Thread.of(registers) for registers in tail.threads]
        try:
            for k in range(len(tail.threads)):
                self.interrupt(k)
        except _Leaves as leaves:
            self.end = ("diverged", self.base) + leaves.args

    def place(self):
        """The number of the next commit, as accounts have it."""
        return self.base + len(self.commits)

    # ------------------------------------------------------------ what the log says

    def head(self):
        """The next actor, or None if no thread is live."""
        if self.log.mode != PICOLOG:
            return self.log.order[len(self.commits)]
        return DMA if self.place() in self.slots else self.turn()

    def turn(self):
        threads = self.machine.threads
        first = 0 if self.last is None else self.last + 1
        turns = ((first + j) % len(threads) for j in range(len(threads)))
        return next((k for k in turns if threads[k].live()), None)

    def size(self, actor):
        """The logged size of the next commit, or None."""
        if self.log.mode == ORDER_SIZE:
            return self.log.sizes[len(self.commits)]
        if actor == DMA:
            return None
        return self.log.sizes.get((actor, self.machine.threads[actor].commits))

    def look(self):
        """Sets the end, if there is one before the next commit."""
        i, log = self.place(), self.log
        if len(self.commits) == log.count:
            sizes = 0 if log.mode == ORDER_SIZE else len(log.sizes)
            used = (self.sized, self.raised, self.inputs, self.dmas)
            whole = used == (sizes, len(log.interrupts), len(log.inputs), len(log.dmas))
            self.end = ("complete", i) if whole else ("diverged", i, LEFT_OVER)
            return
        actor, threads = self.head(), self.machine.threads
        if actor != DMA and (actor is None or actor >= len(threads) or not threads[actor].live()):
            self.end = ("diverged", i, NO_THREAD)

    # ------------------------------------------------------------ one commit

    def step(self):
        actor = self.head()
        start = self.start(actor)
        try:
            done = self.transfer() if actor == DMA else self.thread_step(actor)
        except _Leaves as leaves:
            self.undo(actor, start)
            self.end = ("diverged", self.place()) + leaves.args
            return
        self.commits.append(self.commit(actor, start, done))
        if actor != DMA:
            self.last = actor
        self.look()

    def start(self, actor):
        m = self.machine
        before = None if actor == DMA else m.threads[actor].save()
        return _Start(len(m.pcs), len(m.accesses), len(m.threads), m.request, before)

    def commit(self, actor, start, done):
        m, (kind, size, served, raised), before = self.machine, done, start.before
        handler = before.interrupts if before and before.masked else 0
        return Commit(len(self.commits), self.place(), actor, handler, kind, size, start.steps, len(m.pcs), start.accesses, len(m.accesses),
                      before, served, raised, start.threads, start.request)

    def undo(self, actor, start):
        m = self.machine
        m.undo(start.steps, start.accesses)
        m.request = start.request
        del m.threads[start.threads :]
        if actor != DMA:
            m.threads[actor] = Thread.of(start.before)

    def transfer(self):
        """The commit of a DMA, as (kind, size, served, raised)."""
        size = self.size(DMA)
        if size:
            raise _Leaves(SIZE_OF_SERIAL, size)
        i, request = self.place(), self.machine.request
        slot, data = self.log.dmas[self.dmas] if self.dmas < len(self.log.dmas) else (None, b"")
        if request is None or slot != i or len(data) > request[1]:
            raise _Leaves(BAD_DMA)
        self.machine.dma(data)
        self.dmas += 1
        return TRANSFER, 0, None, None

    def thread_step(self, k):
        """The commit of a thread, as (kind, size, served, raised)."""
        size = self.size(k)
        ran = self.machine.run(k, 1 if size == 0 else self.log.s if size is None else size)
        if size == 0 and ran:
            raise _Leaves(NOT_SERIAL)
        if size and not ran:
            raise _Leaves(SIZE_OF_SERIAL, size)
        if size and ran < size:
            raise _Leaves(SHORT, size, ran)
        served = None if ran else self.serial(k)
        if self.log.mode != ORDER_SIZE and size is not None:
            self.sized += 1
        self.machine.end_commit(k)
        return CHUNK if ran else SERIAL, ran, served, self.interrupt(k)

    def serial(self, k):
        need, record = self.machine.need(k), None
        if need is not None:
            record = self.log.inputs[self.inputs] if self.inputs < len(self.log.inputs) else None
            if not fits(need, record):
                raise _Leaves(INPUT)
            self.inputs += 1
        return self.machine.serve(k, record)

    def interrupt(self, k):
        """Enters the interrupt that is logged after the thread's commit; its value, or None if there is none."""
        value = self.log.interrupts.get((k, self.machine.threads[k].commits))
        if value is None:
            return None
        if not self.machine.interrupt(k, value):
            raise _Leaves(INTERRUPT)
        self.raised += 1
        return value


def play(image, log, tail=None):
    """The whole play."""
    player, collects = Player(image, log, tail), gc.isenabled()
    gc.disable()  # nothing here is a cycle, and looking for some takes most of the time
    try:
        while player.end is None:
            player.step()
    finally:
        if collects:
            gc.enable()
    return Played(player.commits, player.machine, player.end)
