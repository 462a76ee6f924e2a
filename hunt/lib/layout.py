"""Where an image of delorean-cc has its stacks: `stacks_of(names)`. Below each thread's tp is its block, and below that its stack. The
library keeps a mark in the lowest bytes of each, so they aren't for frames."""

from collections import namedtuple
import struct

SP, TP = 2, 4
MARK = 32
_SYMBOLS = "__library_code", "__heap_end", "__threads", "__main_stack", "__main_tp"
_PACKED = struct.Struct("<3I")  # as the engine's struct stacks


class Stacks(namedtuple("Stacks", "first_tp of_first of_others block")):
    """first_tp: the first thread's tp. of_first, of_others: how far below tp frames may reach, the first thread's and any other one's.
    block: how far the block does."""

    def packed(self):
        return _PACKED.pack(*self[:3])

    def begin(self, tp):
        """The lowest address that is for frames."""
        return tp - (self.of_first if tp == self.first_tp else self.of_others)

    def size(self, tp):
        """Bytes that are for frames."""
        return tp - self.block - self.begin(tp)

    @property
    def others(self):
        """Bytes of the whole stack of any thread but the first."""
        return self.of_others - self.block + MARK

    def is_below(self, tp, sp):
        """Whether sp is below the stack. A frame may be larger than all that is below it, so sp may have gone round."""
        return is_below(self.begin(tp), sp)


def is_below(begin, sp):
    return 0 < begin - sp & 0xFFFFFFFF < 1 << 31


def is_below_packed(text, tp, sp):
    """Likewise, of packed stacks."""
    first_tp, of_first, of_others = _PACKED.unpack(text)
    return is_below(tp - (of_first if tp == first_tp else of_others), sp)


def stacks_of(names):
    """None if delorean-cc hasn't linked the image, or if it has lost its symbols."""
    if not all(map(names.has, _SYMBOLS)):
        return None
    _, heap_end, threads, first, tp = map(names.value, _SYMBOLS)
    return Stacks(tp, tp - (heap_end + 15) // 16 * 16 - MARK, tp - threads - MARK, tp - first)
