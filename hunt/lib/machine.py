"""A sphere that is moved by hand: threads, memory and kernel, without cores, order or log.

    m = Machine(image)              # thread 0 is at the entry
    m.run(k, n)                     # thread k does up to n instructions; returns how many. It stops before a serial one, and
                                    # then m.stop says which (below 0)
    m.serial(k)                     # what thread k's next instruction is if it is serial (below 0), else 0; changes nothing
    m.need(k)                       # what that instruction wants from outside, a Need, or None
    m.serve(k, record)              # does it, with an Input if it has a need; returns a Served
    m.end_commit(k)                 # ends the reservation, and counts the commit
    m.interrupt(k, value)           # enters the handler; False if the thread can't
    m.dma(data)                     # does the outstanding request
    mark = m.mark(); m.back(mark)   # goes back to an earlier state of the same machine; costs what was stored since
    state = m.save(); m.restore(state)   # goes to any saved state; costs a copy of the memory

Every step adds its pc to `m.pcs`, and every access to memory adds an Access to `m.accesses`, so each step has a number.
"""

from array import array
from collections import namedtuple

from . import isa
from .isa import Access

UNKNOWN, BAD_BUFFER, NOTHING, REFUSED = 0xFFFFFFFF, 0xFFFFFFFE, 0xFFFFFFFD, 0xFFFFFFFC
CALL_NAMES = ("exit", "spawn", "write", "read", "random", "clock", "handler", "iret", "dma", "self", "yield", "ended")
CONSOLE_CHANNEL, INPUT_CHANNEL = 8, 9
LONGEST = 4096
NO_PC = 0xFFFFFFFF  # in `pcs`: the step is a DMA, which has no instruction
WRITE, READ, RANDOM, CLOCK, MOMENT_LOAD, INPUT_LOAD = 2, 3, 4, 5, 16, 17

# What a serial instruction wants from outside. kind: of the Input that answers it. data: the bytes to be written (a write's).
Need = namedtuple("Need", "kind channel buffer length data")
# What a serial step did. name: of the call, or `fault`, `break`, `device load`, `device store`. arguments: a0 to a2. result:
# what a0 (or a device load's register) got, or the cause of a fault. output: (channel, bytes) or None.
Served = namedtuple("Served", "name arguments result output record")
# A thread as it was: registers are x0 to x31 (and one more number, of no meaning).
Registers = namedtuple("Registers", "pc x reservation handler masked saved status commits interrupts")
Mark = namedtuple("Mark", "steps accesses threads request")
State = namedtuple("State", "memory threads request")

LIVE = ("live", 0)


class Thread:
    """status: LIVE, ("ended", code) or ("fault", cause). saved: pc, a0, a1. interrupts: how many it has taken."""

    __slots__ = ("pc", "x", "reservation", "handler", "masked", "saved", "status", "commits", "interrupts")

    def __init__(self, pc, sp=0, argument=0):
        self.pc, self.x = pc, [0] * 33
        self.x[2], self.x[10] = sp, argument
        self.reservation, self.handler, self.masked, self.saved = None, 0, False, (0, 0, 0)
        self.status, self.commits, self.interrupts = LIVE, 0, 0

    def live(self):
        return self.status == LIVE

    def save(self):
        return Registers(self.pc, tuple(self.x), self.reservation, self.handler, self.masked, self.saved, self.status,
                         self.commits, self.interrupts)

    @classmethod
    def of(cls, r):
        t = cls(0)
        t.pc, x, t.reservation, t.handler, t.masked, t.saved, t.status, t.commits, t.interrupts = r
        t.x = list(x)
        return t


class Machine:
    def __init__(self, image, most=15):
        self.size, self.most = image.size, most
        self.memory = bytearray(image.memory)
        self.words = memoryview(self.memory).cast("I")  # little-endian, as the host is
        self.threads = [Thread(image.entry)]
        self.request = None  # an outstanding DMA: (buffer, length)
        self.pcs = array("I")
        self.accesses = []
        self.note = self.accesses.append
        self.reserved = None  # of the thread that is running
        self.stop = 0

    # ------------------------------------------------------------ instructions

    def run(self, k, n):
        t = self.threads[k]
        x, pc, words, pcs = t.x, t.pc, self.words, self.pcs
        operations, size, append, left, stop = isa.OPS, self.size, pcs.append, n, 0
        self.reserved = t.reservation
        while left:
            if pc >= size:
                stop = isa.fault(1)
                break
            append(pc)
            after = operations[words[pc >> 2]](x, pc, self)
            if after < 0:
                pcs.pop()
                stop = after
                break
            pc = after
            left -= 1
        t.pc, t.reservation, self.stop = pc, self.reserved, stop
        return n - left

    def serial(self, k):
        """What thread k's next instruction is if it is serial, as a number of isa below 0; else 0."""
        t, steps, accesses = self.threads[k], len(self.pcs), len(self.accesses)
        if t.pc >= self.size:
            return isa.fault(1)
        self.pcs.append(t.pc)
        self.reserved = t.reservation
        stop = isa.OPS[self.words[t.pc >> 2]](t.x[:], t.pc, self)
        self.undo(steps, accesses)
        return min(stop, 0)

    # ------------------------------------------------------------ serial steps

    def device_word(self, t):
        w = self.words[t.pc >> 2]
        return (t.x[w >> 15 & 31] + isa.extend(w >> 20, 12)) & isa.M

    def need(self, k):
        """What the next instruction of thread k, which is serial, wants from outside."""
        t, stop = self.threads[k], self.serial(k)
        if stop == isa.DEVICE_LOAD:
            kind = MOMENT_LOAD if self.device_word(t) == isa.MOMENT else INPUT_LOAD
            return Need(kind, None, 0, 0, b"")
        if stop != isa.CALL:
            return None
        call, first, second, third = t.x[17], t.x[10], t.x[11], t.x[12]
        if call == CLOCK:
            return Need(CLOCK, None, 0, 0, b"")
        if call in (WRITE, READ):
            channel, buffer, length = first, second, min(third, LONGEST)
        elif call == RANDOM:
            channel, buffer, length = None, first, min(second, LONGEST)
        else:
            return None
        if buffer + length > self.size:
            return None
        return Need(call, channel, buffer, length, bytes(self.memory[buffer : buffer + length]) if call == WRITE else b"")

    def serve(self, k, record=None):
        """Does the next instruction of thread k, which is serial, and says what it did."""
        t, stop, need = self.threads[k], self.serial(k), self.need(k)
        self.pcs.append(t.pc)
        if isa.is_fault(stop) or stop == isa.BREAK:
            cause = 3 if stop == isa.BREAK else -1 - stop
            t.status = ("fault", cause)
            return Served("break" if stop == isa.BREAK else "fault", (), cause, None, None)
        if stop == isa.DEVICE_LOAD:
            return self.device_load(t, record)
        if stop == isa.DEVICE_STORE:
            return self.device_store(t)
        arguments, call = tuple(t.x[10:13]), t.x[17]
        name = CALL_NAMES[call] if call < len(CALL_NAMES) else "call %d" % call
        output = None
        if call in (WRITE, READ, RANDOM, CLOCK):
            output = self.outside_call(t, need, record)
        else:
            self.inner_call(k, call, *arguments)
        return Served(name, arguments, t.x[10], output, record if need else None)

    def access(self, pc, kind, addr, value):
        self.note(Access(len(self.pcs) - 1, pc, kind, addr, 4, value, value, value))

    def device_load(self, t, record):
        w, addr = self.words[t.pc >> 2], self.device_word(t)
        self.access(t.pc, isa.DEVICE, addr, record.result)
        t.x[(w >> 7 & 31) or isa.BIN] = record.result
        t.pc += 4
        return Served("device load", (addr,), record.result, None, record)

    def device_store(self, t):
        value = t.x[self.words[t.pc >> 2] >> 20 & 31]
        self.access(t.pc, isa.CONSOLE, isa.CONSOLE_WORD, value)
        t.pc += 4
        return Served("device store", (isa.CONSOLE_WORD,), value, (CONSOLE_CHANNEL, bytes((value & 0xFF,))), None)

    def outside_call(self, t, need, record):
        """The output, as (channel, bytes), or None."""
        pc = t.pc
        t.pc += 4
        if need is None:
            t.x[10] = BAD_BUFFER
            return None
        t.x[10] = record.result
        if need.kind == WRITE:
            went = need.data[: record.result] if record.result <= need.length else b""
            self.read_out(pc, need.buffer, len(went))
            return need.channel, went
        if need.kind in (READ, RANDOM):
            self.lay(pc, isa.COPY, need.buffer, record.bytes)
        return None

    def inner_call(self, k, call, first, second, third):
        t = self.threads[k]
        if call == 7 and t.masked:
            t.pc, t.x[10], t.x[11] = t.saved
            t.saved, t.masked = (0, 0, 0), False
            return
        t.pc += 4
        if call == 0:
            t.status = ("ended", first)
            return
        result = UNKNOWN
        if call == 1:
            result = self.spawn(first, second, third)
        elif call == 6:
            result = REFUSED if first % 4 else 0
            if result == 0:
                t.handler = first
        elif call == 7:
            result = REFUSED
        elif call == 8:
            result = self.ask_dma(first, min(second, LONGEST))
        elif call == 9:
            result = k
        elif call == 10:
            result = 0
        elif call == 11:
            result = REFUSED if first >= len(self.threads) else 0 if self.threads[first].live() else 1
        t.x[10] = result

    def spawn(self, entry, sp, argument):
        if len(self.threads) >= self.most or entry % 4:
            return REFUSED
        self.threads.append(Thread(entry, sp, argument))
        return len(self.threads) - 1

    def ask_dma(self, buffer, length):
        if buffer % 4 or buffer + 4 + length > self.size:
            return BAD_BUFFER
        if self.request is not None:
            return REFUSED
        self.request = (buffer, length)
        return 0

    # ------------------------------------------------------------ what isn't an instruction

    def end_commit(self, k):
        t = self.threads[k]
        t.reservation = None
        t.commits += 1

    def interrupt(self, k, value):
        t = self.threads[k]
        if not t.live() or t.handler == 0 or t.masked:
            return False
        t.saved = (t.pc, t.x[10], t.x[11])
        t.pc, t.x[10], t.masked = t.handler, value, True
        t.interrupts += 1
        return True

    def dma(self, data):
        """Does the outstanding request with these bytes, which are no more than it asked for."""
        self.pcs.append(NO_PC)
        buffer, self.request = self.request[0], None
        self.lay(NO_PC, isa.DMA, buffer, len(data).to_bytes(4, "little") + data)

    def lay(self, pc, kind, at, data):
        """Puts bytes into memory, with an access for each word."""
        if not data:
            return
        step, end = len(self.pcs) - 1, at + len(data)
        first, last = at >> 2, end + 3 >> 2
        before = self.words[first:last].tolist()
        self.memory[at:end] = data
        for j, old in enumerate(before, first):
            low, high = max(4 * j, at), min(4 * j + 4, end)
            value = int.from_bytes(self.memory[low:high], "little")
            self.note(Access(step, pc, kind, low, high - low, value, old, self.words[j]))

    def read_out(self, pc, at, length):
        """Notes that the kernel reads bytes, with an access for each word."""
        step, end = len(self.pcs) - 1, at + length
        for j in range(at >> 2, end + 3 >> 2 if length else at >> 2):
            low, high = max(4 * j, at), min(4 * j + 4, end)
            word = self.words[j]
            value = int.from_bytes(self.memory[low:high], "little")
            self.note(Access(step, pc, isa.OUT, low, high - low, value, word, word))

    # ------------------------------------------------------------ going back

    def mark(self):
        return Mark(len(self.pcs), len(self.accesses), tuple(t.save() for t in self.threads), self.request)

    def undo(self, steps, accesses):
        """Puts memory, pcs and accesses back. Threads and request are the caller's."""
        words, done = self.words, self.accesses
        for a in reversed(done[accesses:]):
            if a.old != a.new:
                words[a.addr >> 2] = a.old
        del done[accesses:]
        del self.pcs[steps:]

    def back(self, mark):
        self.undo(mark.steps, mark.accesses)
        self.threads = [Thread.of(r) for r in mark.threads]
        self.request = mark.request

    def save(self):
        return State(bytes(self.memory), tuple(t.save() for t in self.threads), self.request)

    def restore(self, state):
        """Goes to a saved state of any machine with a memory of this size. pcs and accesses begin anew."""
        self.memory[:] = state.memory
        self.threads = [Thread.of(r) for r in state.threads]
        self.request = state.request
        del self.accesses[:], self.pcs[:]


def fits(need, record):
    """Whether the Input could have been the answer."""
    if record is None or record.kind != need.kind:
        return False
    result, data = record.result, record.bytes
    if need.kind == WRITE:
        return not data and (result <= need.length or result in (NOTHING, REFUSED))
    if need.kind == READ:
        return len(data) == result <= need.length or (not data and result in (NOTHING, REFUSED))
    if need.kind == RANDOM:
        return result == need.length == len(data)
    return not data
