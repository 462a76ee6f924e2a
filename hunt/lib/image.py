"""Images: `read_image(bytes, size)` gives the memory at the start and the entry, or raises NotAnImage with the number of the
first rule that is broken."""

from collections import namedtuple
import struct

Image = namedtuple("Image", "size entry memory file")  # memory: bytes; file: the bytes of the ELF file


class NotAnImage(Exception):
    """args: the rule's number."""


def section(data, name):
    """The bytes of the section of that name in an ELF file that was read as an image; none if it isn't there, or is damaged."""
    try:
        headers, size, count, names = struct.unpack_from("<I10xHHH", data, 32)
        sections = [struct.unpack_from("<10I", data, headers + size * j) for j in range(count)] if headers and size == 40 else []
        for at, _, _, _, offset, length, *_ in sections:
            start = sections[names][4] + at
            if data[start:data.index(b"\0", start)] == name and offset + length <= len(data):
                return data[offset:offset + length]
    except (IndexError, ValueError, struct.error):
        pass
    return b""


def read_image(data, size):
    def refuse(broken, rule):
        if broken:
            raise NotAnImage(rule)

    refuse(len(data) < 52, 1)
    kind, machine, version, entry, headers, _, flags, _, header_size, count = struct.unpack_from("<HHIIIIIHHH", data, 16)
    refuse(data[:4] != b"\x7fELF" or data[6] != 1 or version != 1, 2)
    refuse(data[4] != 1, 3)
    refuse(data[5] != 1, 4)
    refuse(kind != 2, 5)
    refuse(machine != 243, 6)
    refuse(flags & 15, 7)
    refuse(header_size != 32 or headers + 32 * count > len(data), 8)
    programs = [struct.unpack_from("<8I", data, headers + 32 * j) for j in range(count)]
    loaded = [(offset, at, filled, length) for kind, offset, at, _, filled, length, _, _ in programs if kind == 1]
    refuse(any(offset + filled > len(data) or filled > length for offset, _, filled, length in loaded), 9)
    refuse(any(at + length > size for _, at, _, length in loaded), 10)
    spans = sorted((at, at + length) for _, at, _, length in loaded if length)
    refuse(any(after[0] < before[1] for before, after in zip(spans, spans[1:])), 11)
    refuse(entry % 4 or entry >= size, 12)
    refuse(not loaded, 13)
    memory = bytearray(size)
    for offset, at, filled, _ in loaded:
        memory[at : at + filled] = data[offset : offset + filled]
    return Image(size, entry, bytes(memory), data)
