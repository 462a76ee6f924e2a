"""Images: `read_image(data, size)` sees whether the bytes are an image for a memory of that size, and raises Broken with the
first rule of rules.IMAGE that they break."""

from collections import namedtuple
import struct

from explain.refusal import Broken
from explain.shown import count, listed, number
from explain.words import MOST_MEMORY

HEADER, PROGRAM_HEADER, LOADED = 52, 32, 1
KINDS = {1: "an object file, which isn't linked", 3: "a shared or a position-independent program", 4: "a core dump"}
MACHINES = {3: "x86", 8: "MIPS", 20: "PowerPC", 40: "ARM", 62: "x86-64", 183: "AArch64"}
BEGINNINGS = {b"DLRN": "a log", b"DLRT": "a tail", b"DLRS": "strata", b"#!": "a script of a shell", b"!<arch>": "a library (.a)",
              b"\x7fELF": "an ELF file"}

# number: of its program header, from 0. filled: the bytes that the file has of it. length: those in memory.
Segment = namedtuple("Segment", "number offset at filled length")


def read_image(data, size):
    check_header(data)
    segments = read_segments(data)
    for check in (check_in_file, check_in_memory, check_apart):
        check(segments, len(data), size)
    entry = struct.unpack_from("<I", data, 24)[0]
    if entry % 4:
        raise Broken((12,), "the entry, %s, isn't a multiple of 4" % address(entry), "", "Set it to the address of an instruction.")
    if entry >= size:
        raise Broken((12,), "the entry, %s, isn't in the memory, which ends at %s" % (address(entry), address(size)))
    if not segments:
        headers = struct.unpack_from("<H", data, 44)[0]
        raise Broken((13,), "no segment is loaded: it has %s, and none of type 1" % count(headers, "program header"))


def address(v):
    return "%08X" % v


def check_header(data):
    if len(data) < HEADER:
        found = "it has %s, and the header of an ELF file has %d" % (count(len(data), "byte"), HEADER)
        raise Broken((1,), found, "", looks_like(data))
    kind, machine, version, _, _, _, flags = struct.unpack_from("<HHIIIII", data, 16)
    if data[:4] != b"\x7fELF":
        raise Broken((2,), "it doesn't begin with 7F 45 4C 46, so it isn't an ELF file", "byte 0", looks_like(data))
    if data[6] != 1 or version != 1:
        place = "byte %d" % (6 if data[6] != 1 else 20)
        raise Broken((2,), "the version of ELF isn't 1", place, "The file is damaged: link it again.")
    if data[4] != 1:
        raise Broken((3,), "it is %s" % ("of 64 bits" if data[4] == 2 else "of no known number of bits"), "byte 4")
    if data[5] != 1:
        order = "high byte first" if data[5] == 2 else "bytes in no known order"
        raise Broken((4,), "its numbers have their %s" % order, "byte 5")
    if kind != 2:
        raise Broken((5,), "it is %s" % KINDS.get(kind, "a file of type %d" % kind), "byte 16")
    if machine != 243:
        raise Broken((6,), "it is for %s, and not for RISC-V" % MACHINES.get(machine, "machine %d" % machine), "byte 18")
    if flags & 15:
        raise Broken((7,), "it is compiled for a processor with %s" % listed(extensions(flags), "and"), "byte 36")


def looks_like(data):
    """What another file may be, as a sentence, or None."""
    for beginning, what in BEGINNINGS.items():
        if data.startswith(beginning):
            return "It begins like %s: is it the file that you mean?" % what
    if not data:
        return "It is empty: is it the file that you mean?"
    if all(byte in b"\t\n\r" or 32 <= byte < 127 for byte in data[:200]):
        return "It is a text: a source has to be assembled or compiled first."
    return None


def extensions(flags):
    out = ["compressed instructions"] if flags & 1 else []
    out += ["floating point in calls"] if flags & 6 else []
    return out + (["16 registers (RV32E)"] if flags & 8 else [])


def read_segments(data):
    headers = struct.unpack_from("<I", data, 28)[0]
    header_size, many = struct.unpack_from("<HH", data, 42)
    if header_size != PROGRAM_HEADER:
        raise Broken((8,), "its program headers have %s each, and not 32" % count(header_size, "byte"), "byte 42")
    end = headers + PROGRAM_HEADER * many
    if end > len(data):
        found = "its program headers end at %s, but the file has %s" % (number(end), count(len(data), "byte"))
        raise Broken((8,), found, "byte 28")
    segments = []
    for j in range(many):
        kind, offset, at, _, filled, length = struct.unpack_from("<6I", data, headers + PROGRAM_HEADER * j)
        if kind == LOADED:
            segments.append(Segment(j, offset, at, filled, length))
    return segments


def check_in_file(segments, length, _):
    for s in segments:
        if s.offset + s.filled > length:
            raise Broken((9,), "the bytes of segment %d end at %s, but the file has %s"
                         % (s.number, number(s.offset + s.filled), count(length, "byte")))
        if s.filled > s.length:
            raise Broken((9,), "segment %d has %s in the file, and only %s in memory"
                         % (s.number, count(s.filled, "byte"), number(s.length)))


def check_in_memory(segments, _, size):
    for s in segments:
        if s.at + s.length > size:
            found = "segment %d ends at %s, past the memory's end at %s" % (s.number, address(s.at + s.length), address(size))
            raise Broken((10,), found, "", room_for(segments))


def room_for(segments):
    """What to do if a segment ends past the memory's end."""
    needed = -(-max(s.at + s.length for s in segments) // 4096) * 4096
    if needed > MOST_MEMORY:
        return "No memory is larger than 16,777,216 bytes, so link the program to lower addresses."
    return "A memory of %d bytes has room for all segments; the stack and heap need more." % needed


def check_apart(segments, *_):
    there = sorted((s for s in segments if s.length), key=lambda s: (s.at, s.number))
    for a, b in zip(there, there[1:]):
        if b.at < a.at + a.length:
            first, second = sorted((a.number, b.number))
            raise Broken((11,), "segments %d and %d share the address %s" % (first, second, address(b.at)))
