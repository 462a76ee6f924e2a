"""Words and places as whoever wrote the program knows them: `naming_of(trace)`. A word of the heap is named by the block that it was in at
that time, and what the library does by the line of the program that called it."""

from bisect import bisect_right
from functools import cached_property

from .calls import HEAD, TAKING_BACK, Heap, calls_of
from .chains import chain_text
from .machine import NO_PC
from .own import Own
from .parts import Parts
from .trace import Moment

SP = 2  # a register
GONE = "a stack that is gone"


def naming_of(trace):
    if trace.naming is None:
        trace.naming = Naming(trace)
    return trace.naming


def stack_owner(trace, addr):
    """The thread of a program of delorean-cc in whose stack an address is, or None."""
    if not trace.names.has("__numbers"):
        return None
    words, numbers, first = trace.machine.words, trace.names.value("__numbers") >> 2, trace.names.value("__threads")
    room, stack = words[numbers + 1], words[numbers + 2]
    slot, away = divmod(addr - first, room)
    number = words[(first + slot * room + stack) >> 2] if away < stack else None
    return number if slot == 0 or number else None


def block_name(names, block):
    """For example `block of list.c:30`, or `block 2 of ..`."""
    number = " %d" % block.count if block.count > 1 else ""
    return "block%s of %s" % (number, names.line(block.where) or names.place(block.where))


def word_in_block(names, block, addr, part=""):
    """For example `block of list.c:30->next`, or `freed block of list.c:30+4` if it isn't known which part that is."""
    away = "+%d" % (addr - block.addr) if addr != block.addr else ""
    return "%s%s%s" % ("freed " if block.freed is not None else "", block_name(names, block), part or away)


class Heaps:
    """The heap as it was at any step, by the calls that had ended."""

    def __init__(self, calls):
        self.calls = sorted(calls, key=lambda call: (call.last, call.first))
        self.lasts = [call.last for call in self.calls]
        self.known = {0: Heap()}  # after so many calls

    def at(self, step):
        count = bisect_right(self.lasts, step)
        if count not in self.known:
            first = max(known for known in self.known if known < count)
            self.known[count] = heap = self.known[first].copy()
            for call in self.calls[first:count]:
                heap.look(call)
        return self.known[count]


class Naming:
    def __init__(self, trace):
        self.trace, self.names, self.own = trace, trace.names, Own(trace.image, trace.names)
        self._moment = None

    @cached_property
    def calls(self):
        return calls_of(self.trace, self.own)

    @cached_property
    def heaps(self):
        return Heaps(self.calls)

    # ------------------------------------------------------------ words

    @cached_property
    def parts(self):
        return Parts(self.trace, self.own, self.calls)

    def word_of(self, access):
        """What an access is to, told as a part of its block if that is certain."""
        return self.access_in(self.heaps.at(access.step) if self.own.is_heap(access.addr) else None, access, access.step)

    def access_in(self, heap, access, step):
        """The same, given the heap as it is then."""
        block = heap.block(access.addr) if heap is not None and self.own.is_heap(access.addr) else None
        part = self.parts.path(block, access.addr - block.addr, access.width) if block else ""
        return word_in_block(self.names, block, access.addr, part) if part else self.word_in(heap, access.addr, access.width, step)

    def word(self, addr, width, step):
        """What so many bytes are at a step."""
        return self.word_in(self.heaps.at(step) if self.own.is_heap(addr) else None, addr, width, step)

    def word_in(self, heap, addr, width, step):
        """The same, given the heap as it is then."""
        if heap is not None and self.own.is_heap(addr):
            block, past, head = heap.block(addr), heap.before(addr), heap.block(addr + HEAD)
            if block:
                return word_in_block(self.names, block, addr)
            if past:
                return "past the end of " + block_name(self.names, past)
            if head:
                return "before " + block_name(self.names, head)
        if not self.own.has_library or not self.own.is_stack(addr):
            return self.names.name(addr, width)
        owner = self._gone_of(addr, step)
        return "a stack, %08X" % addr if owner is None else GONE + ", of thread %d" % owner

    def _gone_of(self, addr, step):
        """The thread in whose stack a word is, if it has ended or its sp is above the word, and another thread acts; else None."""
        commit = None if step >= self.trace.steps else self.trace.commit_of(step)
        owner = stack_owner(self.trace, addr)
        if owner is None or commit and commit.actor == owner:
            return None
        thread = self.trace.thread_at(owner, commit.number if commit else len(self.trace.commits))
        return owner if thread is not None and (thread.status[0] != "live" or addr < thread.x[SP]) else None

    # ------------------------------------------------------------ places

    def call_at(self, step):
        """The program's call of its library that a step is in, or None."""
        who = self.trace.context(self.trace.commit_of(step))
        return next((call for call in self.calls if call.who == who and call.first <= step < call.last), None)

    def freed_by(self, access):
        """The name of the block that an access of the library's is made to free; None if it isn't."""
        call = None if self.own.is_code(access.pc) else self.call_at(access.step)
        return self.word(call.arguments[0], 4, call.first) if call and call.name in TAKING_BACK and call.arguments[0] else None

    def place_of(self, access):
        """Where in the program's own code an access comes from; of one of the library, which function was called there, unless it is free,
        which is told by its name."""
        if access.pc == NO_PC:
            return ""
        return self.names.place(self.caller(access.pc, access.step)[1]) if self.freed_by(access) else self.place(access.pc, access.step)

    def place(self, pc, step):
        function, at = self.caller(pc, step)
        is_known = function and not function.startswith("_") and not self.own.is_code(pc)
        return chain_text([function, self.names.place(at)]) if is_known else self.names.place(at)

    def caller(self, pc, step):
        """(the library's function that the program called, where it did); the pc itself if that is the program's own, or nothing is
        known."""
        if self.own.is_code(pc):
            return None, pc
        call = self.call_at(step)
        return (call.name, call.at) if call else self._by_frames(pc, step)

    def _by_frames(self, pc, step):
        """The same, by the frames on the stack: so it is if the library has called back the program."""
        thread = self.trace.commit_of(step).actor
        if self._moment is None:
            self._moment = Moment(self.trace)
        self._moment.seek(step)
        machine = self._moment.machine
        chain = self.trace.frames.chain(pc, machine.threads[thread].x, lambda addr: machine.words[addr >> 2])
        at = next((j for j, one in enumerate(chain) if self.own.is_code(one)), 0)
        return (self.names.function(chain[at - 1]), chain[at]) if at else (None, pc)
