"""Which functions of an image its code can come to: `reached(image, names)`, by calls and jumps to fixed addresses, and by addresses of
functions that the code or the data of those has. So of a function that isn't in there no run executes anything."""

JAL, JALR, ADDI, LUI, AUIPC = 0x6F, 0x67, 0x13, 0x37, 0x17
MOST_LAST = 4096  # bytes of the last function
_NO_REGISTER = frozenset((0x63, 0x23, 0x0F))  # opcodes of branches, stores and fences


def signed(value, bits):
    return value - (1 << bits) if value >> bits - 1 & 1 else value


def jump_of(word):
    """How far a jal jumps."""
    return signed(word >> 31 << 20 | (word >> 12 & 0xFF) << 12 | (word >> 20 & 1) << 11 | (word >> 21 & 0x3FF) << 1, 21)


def targets(words, first, end):
    """The addresses that the code from first to end jumps to, or makes of constants."""
    upper = {0: 0}  # of each register what was put there last, if that is a constant
    for pc in range(first, end, 4):
        word = words[pc >> 2]
        operation, to, source = word & 0x7F, word >> 7 & 31, word >> 15 & 31
        if operation == JAL:
            yield pc + jump_of(word)
        is_sum = operation == JALR or operation == ADDI and not word >> 12 & 7
        value = upper[source] + signed(word >> 20, 12) if is_sum and source in upper else None
        if value is not None:
            yield value & 0xFFFFFFFF
        if operation in (LUI, AUIPC):
            value = (word & 0xFFFFF000) + (pc if operation == AUIPC else 0)
        if to and operation not in _NO_REGISTER:
            upper.pop(to, None)
            if value is not None and operation != JALR:
                upper[to] = value & 0xFFFFFFFF


def words_of(image):
    """The words of the memory up to the last one that isn't 0."""
    data = bytes(image.memory).rstrip(b"\0")
    return memoryview(data + bytes(-len(data) % 4)).cast("I").tolist()


def reached(image, names):
    """Functions are taken to be entered at their begin. The names of all functions that can be executed, as far as the image has symbols for them."""
    words = words_of(image)
    starts = sorted({s.addr for s in names.code})
    ends = dict(zip(starts, starts[1:] + [min(starts[-1] + MOST_LAST, 4 * len(words))]))
    of = {}
    for symbol in names.code:
        of.setdefault(symbol.addr, []).append(symbol.name)
    code = range(starts[0], ends[starts[-1]])
    todo = [image.entry] + [word for at, word in enumerate(words) if word in of and 4 * at not in code]
    seen = set()
    while todo:
        first = todo.pop()
        if first in seen or first not in of:
            continue
        seen.add(first)
        todo += targets(words, first, ends[first])
    return {name for addr in seen for name in of[addr]}
