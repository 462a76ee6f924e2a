"""Which function a static local variable is of, by an image's debug information: `functions_of(data)`."""

import io

_ADDRESS = 0x03  # DW_OP_addr: the variable is at this address


def functions_of(data):
    """Of each variable in a function that has an address of its own: that address -> the function's name. {} without pyelftools, or if
    it can't read the file."""
    try:
        from elftools.elf.elffile import ELFFile

        elf, found = ELFFile(io.BytesIO(data)), {}
        for unit in elf.get_dwarf_info().iter_CUs() if elf.has_dwarf_info() else ():
            _look(unit.get_top_DIE(), None, found)
        return found
    except Exception:  # as for lines, damaged information counts as none
        return {}


def _look(die, function, found):
    for child in die.iter_children():
        if child.tag == "DW_TAG_subprogram":
            _look(child, _name(child), found)
        elif child.tag == "DW_TAG_lexical_block":
            _look(child, function, found)
        elif child.tag == "DW_TAG_variable" and function:
            addr = fixed_address(child)
            if addr is not None:
                found[addr] = function


def fixed_address(die):
    """The address that a variable has all the time; None if it moves, or is in a register, or only its value is known, which may be an
    address."""
    place = die.attributes.get("DW_AT_location")
    if place is None or not isinstance(place.value, list) or len(place.value) != 5 or place.value[0] != _ADDRESS:
        return None
    return int.from_bytes(bytes(place.value[1:]), "little")


def _name(die):
    """The name of a function, which may be that of the one that it is a copy of."""
    while "DW_AT_name" not in die.attributes:
        origin = next((name for name in ("DW_AT_abstract_origin", "DW_AT_specification") if name in die.attributes), None)
        if origin is None:
            return None
        die = die.get_DIE_from_attribute(origin)
    return die.attributes["DW_AT_name"].value.decode("utf-8", "replace")
