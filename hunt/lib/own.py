"""Which code and data of an image are the program's own: `Own(image, names)`. The library that delorean-cc links comes after the
program's code, from the symbol `__library_code` on. An image without this symbol has no library."""

import struct

_LIBRARY, _HEAP, _HEAP_END, _STACKS, _END = "__library_code", "__heap", "__heap_end", "__threads", "memory_used"
_LOADED, _WRITABLE = 1, 2


def writable_spans(data):
    """(first, end) of each loaded segment of an ELF file that the program may write."""
    headers, count = struct.unpack_from("<I", data, 28)[0], struct.unpack_from("<H", data, 44)[0]
    programs = [struct.unpack_from("<8I", data, headers + 32 * j) for j in range(count)]
    return [(at, at + size) for kind, _, at, _, _, size, flags, _ in programs if kind == _LOADED and flags & _WRITABLE]


def section_words(data, wanted):
    """The words of an ELF file's section of this name; none if it has no such section."""
    headers, size, count, texts = struct.unpack_from("<I", data, 32)[0], *struct.unpack_from("<HHH", data, 46)
    sections = [struct.unpack_from("<10I", data, headers + size * j) for j in range(count)] if size == 40 else []
    for name, _, _, _, offset, length, *_ in sections:
        start = sections[texts][4] + name
        if data[start : data.index(b"\0", start)].decode("ascii", "replace") == wanted:
            return struct.unpack_from("<%dI" % (length // 4), data, offset)
    return ()


class Own:
    def __init__(self, image, names):
        self.names, self.spans = names, writable_spans(image.file)
        self.lock_code = frozenset(section_words(image.file, ".delorean.acquires") + section_words(image.file, ".delorean.releases"))
        self.library = self._symbol(_LIBRARY, image.size)
        self.heap = self._symbol(_HEAP, image.size), self._symbol(_HEAP_END, image.size)
        self._known = {}
        self.stacks = self._symbol(_STACKS, image.size), self._symbol(_END, image.size)

    def _symbol(self, name, default):
        return self.names.value(name) if self.names.has(name) else default

    @property
    def has_library(self):
        return self.names.has(_LIBRARY)

    def is_code(self, pc):
        """Whether an instruction is the program's own, and not the library's or its start's."""
        if pc not in self._known:
            self._known[pc] = not self.has_library or pc < self.library and not (self.names.function(pc) or "_").startswith("_")
        return self._known[pc]

    def files(self):
        """The names of the source files that the program's own code has lines of."""
        return {text.partition(":")[0] for pc, text in self.names.lines() if text and self.is_code(pc)}

    def is_stack(self, addr):
        """Whether a word is in the stacks of threads, or among their blocks."""
        return self.stacks[0] <= addr < self.stacks[1]

    def is_heap(self, addr):
        return self.heap[0] <= addr < self.heap[1]

    def is_data(self, addr):
        """Whether a word is a variable or on the heap: it can be written, and isn't in a stack."""
        return not self.is_stack(addr) and any(first <= addr < end for first, end in self.spans)
