"""Parts of variables by an image's debug information: `fields = Fields(data)`, then `fields.path(addr, away, width)` is for example
`.count` or `[3].seq`, and `fields.part(addr, ".count")` is (away, size). Types that the library keeps to itself have no parts."""

import io
import re

from .statics import fixed_address

_SAME = {"DW_TAG_typedef", "DW_TAG_const_type", "DW_TAG_volatile_type", "DW_TAG_atomic_type", "DW_TAG_restrict_type"}
_OPAQUE = re.compile(r"pthread_\w+|sem_t|mtx_t|cnd_t|tss_t|thrd_t|once_flag|atomic_flag|va_list|jmp_buf")
_STEP = re.compile(r"\.(\w+)|\[(\d{1,9})\]")
MOST_STEPS = 16


class Fields:
    def __init__(self, data):
        """The types of the variables that have an address of their own; none without pyelftools, or if it can't read the file."""
        self.types = {}
        try:
            from elftools.elf.elffile import ELFFile

            elf = ELFFile(io.BytesIO(data))
            for unit in elf.get_dwarf_info().iter_CUs() if elf.has_dwarf_info() else ():
                self._look(unit.get_top_DIE(), True)
        except Exception:  # as for lines, damaged information counts as none
            self.types = {}

    def _look(self, die, is_top=False):
        for child in die.iter_children():
            if child.tag in ("DW_TAG_subprogram", "DW_TAG_lexical_block"):
                if child.has_children:
                    self._look(child)
            elif child.tag == "DW_TAG_variable":
                addr = fixed_address(child)
                if addr is not None:
                    self.types[addr] = child

    # ------------------------------------------------------------ types

    def path(self, addr, away, width):
        """The part of the variable at an address that has so many bytes from `away` on: its path, with `+0x..` for what is left."""
        try:
            path, rest, _ = _path(type_of(declared(self.types[addr])), away, width) if addr in self.types else ("", away, None)
        except Exception:
            path, rest = "", away
        return path + ("+0x%X" % rest if rest else "")

    def of_structure(self, kind, away, width):
        """(path, size of the whole) of the part of a structure that has just these bytes; the path is empty if there is none."""
        try:
            path, rest, part = _path(kind, away, width) if away >= 0 else ("", away, None)
            return (path if rest == 0 and _size(part) == width else ""), _size(kind)
        except Exception:
            return "", 0

    def part(self, addr, path):
        """(bytes from the variable's begin, size) of the part that a path names; None if there is none."""
        try:
            return self._part(type_of(declared(self.types[addr])), path) if addr in self.types else None
        except Exception:
            return None

    def _part(self, kind, path):
        away = 0
        while path:
            step, kind = _STEP.match(path), plain(kind)
            found = _named(kind, step) if step and kind is not None else None
            if found is None:
                return None
            away, kind, path = away + found[0], found[1], path[step.end() :]
        return away, _size(kind)


def declared(die):
    """The entry that has the type: it may be that of the declaration."""
    for _ in range(MOST_STEPS):
        origin = next((name for name in ("DW_AT_abstract_origin", "DW_AT_specification") if name in die.attributes), None)
        if "DW_AT_type" in die.attributes or origin is None:
            return die
        die = die.get_DIE_from_attribute(origin)
    return die


def _path(kind, away, width):
    """(path, bytes that are left, the part's type)."""
    path, part = "", kind
    for _ in range(MOST_STEPS):
        kind = plain(kind)
        found = _inner(kind, away, width) if kind is not None else None
        if found is None:
            break
        step, kind, away = found
        path, part = path + step, kind
    return path, away, part


def type_of(die):
    return die.get_DIE_from_attribute("DW_AT_type") if die is not None and "DW_AT_type" in die.attributes else None


def _name(die):
    return die.attributes["DW_AT_name"].value.decode("utf-8", "replace") if "DW_AT_name" in die.attributes else ""


def plain(kind):
    """The type without qualifiers and names; None of one that has no parts to be told."""
    while kind is not None and kind.tag in _SAME:
        if _OPAQUE.fullmatch(_name(kind)):
            return None
        kind = type_of(kind)
    return kind


def _size(kind):
    while kind is not None and kind.tag in _SAME:
        kind = type_of(kind)
    if kind is None:
        return 0
    if kind.tag == "DW_TAG_array_type" and "DW_AT_byte_size" not in kind.attributes:
        size = _size(type_of(kind))
        for count in _counts(kind):
            size *= count
        return size
    return kind.attributes["DW_AT_byte_size"].value if "DW_AT_byte_size" in kind.attributes else 0


def _counts(array):
    """Of each dimension how many there are; 0 if that isn't known."""
    for child in array.iter_children():
        if child.tag == "DW_TAG_subrange_type":
            if "DW_AT_count" in child.attributes:
                yield child.attributes["DW_AT_count"].value
            else:
                yield child.attributes["DW_AT_upper_bound"].value + 1 if "DW_AT_upper_bound" in child.attributes else 0


def _members(structure):
    """(name, type, bytes from the begin) of each member that isn't of bits."""
    for child in structure.iter_children():
        if child.tag == "DW_TAG_member" and "DW_AT_bit_size" not in child.attributes:
            at = child.attributes.get("DW_AT_data_member_location")
            yield _name(child), type_of(child), at.value if at is not None else 0


def _inner(kind, away, width):
    """(step, type, away) of the part of a structure or array that the bytes are in, or None. Which member of a union is meant isn't
    known."""
    if kind.tag == "DW_TAG_structure_type":
        for name, inner, at in _members(kind):
            if at <= away and away + width <= at + _size(inner):
                return ("." + name if name else ""), inner, away - at
    if kind.tag == "DW_TAG_array_type":
        element, counts = type_of(kind), list(_counts(kind))
        size, step = _size(element), ""
        if not size or not counts or away // size != (away + width - 1) // size:
            return None
        index, rest = divmod(away, size)
        for count in reversed(counts[1:]):
            if not count:
                return None
            index, last = divmod(index, count)
            step = "[%d]" % last + step
        return "[%d]" % index + step, element, rest
    return None


def _named(kind, step):
    """(bytes from the begin, type) of a member or an element by its step, or None."""
    if step[1] is not None and kind.tag in ("DW_TAG_structure_type", "DW_TAG_union_type"):
        for name, inner, at in _members(kind):
            if name == step[1]:
                return at, inner
            found = _named(plain(inner), step) if not name and inner is not None else None
            if found:
                return at + found[0], found[1]
    if step[2] is not None and kind.tag == "DW_TAG_array_type":
        counts = list(_counts(kind))
        if len(counts) == 1 and int(step[2]) < counts[0]:
            return int(step[2]) * _size(type_of(kind)), type_of(kind)
    return None
