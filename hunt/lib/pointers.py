"""To what a register points, by an image's debug information: `Pointers(data).pointee(pc, register)` is the entry of the structure, if a
variable that is in the register right before the instruction at pc is declared as a pointer to it, and none that is there says otherwise."""

import io

from .fields import declared, plain, type_of

_IN_REGISTER = 0x50  # DW_OP_reg0


class Pointers:
    def __init__(self, data):
        """It knows nothing without pyelftools, or if that can't read the file."""
        self.units, self.known = {}, {}  # of each unit by its offset: (first, end, register, entry of the variable)
        try:
            from elftools.dwarf.locationlists import LocationParser
            from elftools.elf.elffile import ELFFile

            elf = ELFFile(io.BytesIO(data))
            self.dwarf = elf.get_dwarf_info() if elf.has_dwarf_info() else None
            self.ranges = self.dwarf and self.dwarf.get_aranges()
            self.parser = self.dwarf and LocationParser(self.dwarf.location_lists())
        except Exception:  # as for lines, damaged information counts as none
            self.ranges = None

    def pointee(self, pc, register):
        if (pc, register) not in self.known:
            try:
                self.known[pc, register] = self._pointee(pc, register) if self.ranges else None
            except Exception:
                self.known[pc, register] = None
        return self.known[pc, register]

    def _pointee(self, pc, register):
        offset = self.ranges.cu_offset_at_addr(pc)
        if offset is None:
            return None
        if offset not in self.units:
            self.units[offset] = list(self._variables(self.dwarf.get_CU_at(offset)))
        kinds = [kind_of(die) for first, end, there, die in self.units[offset] if first <= pc < end and there == register]
        structures = [_structure(kind) for kind in kinds if not is_void(kind)]
        return structures[0] if structures and structures[0] is not None and len({s and s.offset for s in structures}) == 1 else None

    def _variables(self, unit):
        """(first, end, register, entry) of each variable, as long as it is in a register."""
        version, top = unit.header["version"], unit.get_top_DIE()
        base, _ = extent(top) or (0, 0)
        for die, scope in inside(top, None):
            place = die.attributes.get("DW_AT_location")
            if place is None or not self.parser.attribute_has_location(place, version):
                continue
            entries = self.parser.parse_from_attribute(place, version, die)
            for first, end, expression in spans(entries, base) if isinstance(entries, list) else always(scope, entries.loc_expr):
                if len(expression) == 1 and 0 <= expression[0] - _IN_REGISTER < 32:
                    yield first, end, expression[0] - _IN_REGISTER, die


def extent(die):
    """(first, end) of its code, if that is in one piece."""
    low, high = die.attributes.get("DW_AT_low_pc"), die.attributes.get("DW_AT_high_pc")
    if low is None:
        return None
    return low.value, (0 if high is None else high.value if high.form == "DW_FORM_addr" else low.value + high.value)


def inside(die, scope):
    """(variable, extent of the code that knows it) of all variables."""
    for child in die.iter_children():
        if child.tag in ("DW_TAG_variable", "DW_TAG_formal_parameter"):
            yield child, scope
        elif child.tag in ("DW_TAG_subprogram", "DW_TAG_lexical_block", "DW_TAG_inlined_subroutine"):
            yield from inside(child, extent(child))


def always(scope, expression):
    return [(*scope, expression)] if scope else []


def spans(entries, base):
    """(first, end, expression) of the entries of a location list."""
    for entry in entries:
        if hasattr(entry, "base_address"):
            base = entry.base_address
        else:
            away = 0 if entry.is_absolute else base
            yield away + entry.begin_offset, away + entry.end_offset, entry.loc_expr


def kind_of(die):
    return plain(type_of(declared(die)))


def is_void(kind):
    """Whether it points to anything, so that it says nothing."""
    return kind is not None and kind.tag == "DW_TAG_pointer_type" and plain(type_of(kind)) is None


def _structure(kind):
    found = plain(type_of(kind)) if kind is not None and kind.tag == "DW_TAG_pointer_type" else None
    return found if found is not None and found.tag == "DW_TAG_structure_type" else None
