"""Who called whom: `Frames(image).chain(pc, x, word)`, from the image's call frame information (DWARF 4, section 6.4), which pyelftools
reads. Without it, or in code by hand, a function is taken not to have moved its return address."""

import io

RA, SP = 1, 2
MOST_FRAMES = 16


def _tables(data):
    """(first address, end, rows) of each function; a row has `pc`, `cfa` and rules by the number of the register."""
    from elftools.dwarf.callframe import FDE
    from elftools.elf.elffile import ELFFile

    elf = ELFFile(io.BytesIO(data))
    if not elf.has_dwarf_info():
        return []
    dwarf, entries = elf.get_dwarf_info(), []
    if dwarf.has_CFI():
        entries += dwarf.CFI_entries()
    if dwarf.has_EH_CFI():
        entries += dwarf.EH_CFI_entries()
    return [(e["initial_location"], e["initial_location"] + e["address_range"], e.get_decoded().table)
            for e in entries if isinstance(e, FDE)]


class Frames:
    def __init__(self, image):
        try:
            self.tables = _tables(image.file)
        except Exception:  # pyelftools isn't there, or can't read this
            self.tables = []
        self.size = image.size

    def row(self, pc):
        """What holds at a pc, or None if nothing is known."""
        for first, end, rows in self.tables:
            if first <= pc < end:
                return next((row for row in reversed(rows) if row["pc"] <= pc), None)
        return None

    def chain(self, pc, x, word):
        """The pc, and those of the calls that led there, without code by hand, such as that of a call of the kernel."""
        pcs = [pc, *self.calls(pc, x, word)]
        return [pc for pc in pcs if self.row(pc)] or pcs[:1]

    def calls(self, pc, x, word):
        """The pcs of the calls that led to a pc, the latest first. x: registers there. word: a word of memory by its address."""
        x, found = list(x), []
        while len(found) < MOST_FRAMES:
            row = self.row(pc)
            if row is None and found:
                break
            saved, top = self._saved(row, x, word)
            pc, x[SP] = saved.get(RA, x[RA]) - 4, top
            if not 0 <= pc < self.size or pc & 3:
                break
            found.append(pc)
            for register, value in saved.items():
                x[register] = value
            if RA not in saved:
                x[RA] = 0
        return found

    def _saved(self, row, x, word):
        """The registers that the caller's frame has, and its sp."""
        if row is None or row["cfa"].reg is None:
            return {}, x[SP]
        top = x[row["cfa"].reg] + row["cfa"].offset & 0xFFFFFFFF
        saved = {}
        for register, rule in row.items():
            place = top + rule.arg if isinstance(register, int) and rule.type == "OFFSET" else None
            if place is not None and 0 <= place < self.size:
                saved[register] = word(place)
        return saved, top
