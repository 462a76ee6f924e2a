"""Which fields the words of heap blocks are: `Parts(trace, own, calls).path(block, away, width)` is for example `->price`, or "" if that
isn't certain.

A word is a field if a line of the program reaches it by a variable that is declared as a pointer to a structure with this field, and no
other variable names it otherwise in any block that the same line has asked for. A pointer may be left of a block that was freed, and
whose bytes are another one's by now: so nothing is said of a block whose bytes were another line's before."""

from . import isa
from .calls import GIVING, Heap
from .machine import NO_PC
from .pointers import Pointers

_LOAD, _STORE, _ATOMIC = 0x03, 0x23, 0x2F  # opcodes
_OF_REGISTER = isa.LOADS | isa.STORES - {isa.OUT, isa.COPY, isa.DMA}


class Parts:
    def __init__(self, trace, own, calls):
        self.trace, self.own, self.fields = trace, own, trace.names.fields
        self.pointers = Pointers(trace.image.file if b".debug_info" in trace.image.file else b"")
        self.found, self.reached, self.mixed, self.spans = {}, set(), set(), []  # found: of all blocks of a line
        heap, ends = Heap(), sorted(calls, key=lambda call: (-call.last, -call.first))
        for access in trace.accesses:
            while ends and ends[-1].last <= access.step:
                self._look_at_call(heap, ends.pop())
            if own.is_heap(access.addr):
                self._look(heap, access)

    def path(self, block, away, width):
        found = self.found.get((block.where, away, width), ())
        is_reached = (_key(block), away, width) in self.reached and _key(block) not in self.mixed
        return next(iter(found)) if is_reached and len(found) == 1 else ""

    def _look_at_call(self, heap, call):
        heap.look(call)
        block = heap.block(call.result) if call.name in GIVING and call.result else None
        if block is not None:
            first, end = block.addr, block.addr + block.size
            if any(first < until and at < end and where != block.where for at, until, where in self.spans):
                self.mixed.add(_key(block))
            self.spans.append((first, end, block.where))

    def _look(self, heap, access):
        block = heap.block(access.addr)
        if block is None or access.pc == NO_PC or access.kind not in _OF_REGISTER or not self.own.is_code(access.pc):
            return
        path = self._path(block, access, *base_of(self.trace.image.memory, access.pc))
        if path:
            away = access.addr - block.addr
            self.reached.add((_key(block), away, access.width))
            self.found.setdefault((block.where, away, access.width), set()).add(path)

    def _path(self, block, access, register, immediate):
        """The field that the access names, by the variable in its base register; "" if it is none."""
        kind = None if register is None else self.pointers.pointee(access.pc, register)
        if kind is None:
            return ""
        away = access.addr - block.addr - immediate  # of the structure
        path, size = self.fields.of_structure(kind, immediate, access.width)
        if not path or away < 0 or away + size > block.size:
            return ""
        return ("+%d" % away if away else "") + "->" + path.removeprefix(".")


def _key(block):
    return block.where, block.count


def base_of(memory, pc):
    """(register, number that is added to it) by which the instruction at pc names an address; (None, 0) if it doesn't."""
    word = int.from_bytes(memory[pc : pc + 4], "little")
    opcode, register = word & 127, word >> 15 & 31
    if opcode == _LOAD:
        return register, isa.extend(word >> 20, 12)
    if opcode == _STORE:
        return register, isa.extend(word >> 25 << 5 | word >> 7 & 31, 12)
    return (register, 0) if opcode == _ATOMIC else (None, 0)
