"""Names and source lines of an image: `Names(image)`. Symbols are read here, and lines by pyelftools if it is installed and
the image has any. Without symbols everything has its number alone."""

from bisect import bisect_right
from collections import Counter, namedtuple
import os
import re
import struct

from .fields import Fields
from .statics import functions_of

Symbol = namedtuple("Symbol", "addr size name is_code")

_NOTYPE, _OBJECT, _FUNCTION = 0, 1, 2
_LOCAL = 0
_EXECUTED = 4


class NoWord(Exception):
    """args: what was asked for, and why it isn't a word."""


def printable(name):
    """The bytes of a name as text for a terminal: what can't be shown is `?`."""
    return "".join(c if c.isprintable() else "?" for c in name.decode("utf-8", "replace"))


def _symbols(data):
    """The symbols of the image's symbol tables. Fails if they are damaged."""
    headers, size, count = struct.unpack_from("<I", data, 32)[0], *struct.unpack_from("<HH", data, 46)
    sections = [struct.unpack_from("<10I", data, headers + size * j) for j in range(count)] if size == 40 else []
    out = []
    for _, kind, _, _, offset, length, link, _, _, entry in sections:
        if kind != 2 or entry != 16:
            continue
        names, names_length = sections[link][4], sections[link][5]
        for at in range(offset, offset + length, entry):
            name, value, extent, info, _, section = struct.unpack_from("<IIIBBH", data, at)
            start = names + name
            text = printable(data[start : data.index(b"\0", start, names + names_length)])
            if not text or text.startswith("$") or not 0 < section < len(sections):
                continue
            is_code = bool(sections[section][2] & _EXECUTED)
            if info & 15 in (_OBJECT, _FUNCTION) or (info & 15 == _NOTYPE and info >> 4 != _LOCAL):
                out.append(Symbol(value, extent, text, is_code))
    return out


def _lines(data):
    """(addr, order, "file:line"), rising; None in place of the line if a sequence ends there."""
    import io

    from elftools.elf.elffile import ELFFile

    elf = ELFFile(io.BytesIO(data))
    if not elf.has_dwarf_info():
        return []
    out = []
    dwarf = elf.get_dwarf_info()
    for unit in dwarf.iter_CUs():
        program = dwarf.line_program_for_CU(unit)
        if program is None:
            continue
        files, first = program["file_entry"], 0 if program["version"] >= 5 else 1
        for entry in program.get_entries():
            state = entry.state
            if state is None:
                continue
            if state.end_sequence:
                out.append((state.address, 0, None))
            else:
                name = printable(os.path.basename(files[state.file - first].name))
                out.append((state.address, 1, "%s:%d" % (name, state.line)))
    # Of several entries at an address the last one counts, and a begin counts more than another sequence's end.
    return sorted({addr: (addr, order, text) for addr, order, text in sorted(out, key=lambda e: e[:2])}.values())


class Names:
    def __init__(self, image):
        self.file, self.size, self._table, self._locals, self._fields = image.file, image.size, None, None, None
        try:
            found = _symbols(image.file)
        except (struct.error, ValueError, IndexError):  # a damaged table counts as no table
            found = []
        self.symbols = sorted(set(found))
        self.by_name = {}
        for s in self.symbols:
            self.by_name.setdefault(s.name, s)
        self.code = [s for s in self.symbols if s.is_code]
        self.data = [s for s in self.symbols if not s.is_code and s.size]
        self.code_at = [s.addr for s in self.code]
        self.data_at = [s.addr for s in self.data]

    def has(self, name):
        return name in self.by_name

    def value(self, name):
        """The address of a symbol."""
        return self.by_name[name].addr

    def function(self, pc):
        """The function of a pc, for example `work`, or None. Of `work.isra.0`, a compiler's name, it is `work` too."""
        j = bisect_right(self.code_at, pc) - 1
        if j < 0:
            return None
        s = self.code[j]
        return s.name.partition(".")[0] if not s.size or pc < s.addr + s.size else None

    def lines(self):
        """(pc, its source line, or None) of each pc at which a line begins."""
        return zip(*self._lines_table())

    def _lines_table(self):
        if self._table is None:
            self._table = self._read_lines()
        return self._table

    def line(self, pc):
        """The source line of a pc, for example `race.c:24`, or None."""
        self._lines_table()
        j = bisect_right(self._table[0], pc) - 1
        return self._table[1][j] if j >= 0 else None

    def _read_lines(self):
        if b".debug_line" not in self.file:
            return [], []
        try:
            found = _lines(self.file)
        except Exception:  # pyelftools isn't there, or can't read this: no lines
            found = []
        return [e[0] for e in found], [e[2] for e in found]

    def place(self, pc):
        """A pc in words: `work, race.c:24`, or as much as is known, or its number."""
        function, line = self.function(pc), self.line(pc)
        if function is None and line is None:
            return "%08X" % pc
        return ", ".join(filter(None, (function, line))) if line else "%s, %08X" % (function, pc)

    @property
    def fields(self):
        """Of which parts variables are made."""
        if self._fields is None:
            self._fields = Fields(self.file if b".debug_info" in self.file else b"")
        return self._fields

    def name(self, addr, width=4):
        """So many bytes of data in words: `counter`, `queue.count`, `ring[3].seq`, `stacks+0x40`, or their address."""
        symbol = self.symbol(addr)
        return self.whole_name(addr) + self.fields.path(symbol.addr, addr - symbol.addr, width) if symbol else "%08X" % addr

    def whole_name(self, addr):
        """The variable that an address is in, or the address."""
        symbol = self.symbol(addr)
        return "%08X" % addr if symbol is None else self._local_names().get(symbol, symbol.name)

    def _local_names(self):
        """Of static variables in functions, which compilers call `pool.4`, names for people: `sell::pool` if it is known which function
        they are of, else `pool` if only one is called so."""
        if self._locals is None:
            found = {s: s.name.partition(".")[0] for s in self.data if re.fullmatch(r"[A-Za-z_]\w*\.\d+", s.name)}
            functions = functions_of(self.file) if found else {}
            counts = Counter(list(found.values()) + [s.name for s in self.symbols])
            self._locals = {s: "%s::%s" % (functions[s.addr], name) for s, name in found.items() if s.addr in functions}
            self._locals.update({s: name for s, name in found.items() if s.addr not in functions and counts[name] == 1})
        return self._locals

    def symbol(self, addr):
        """The Symbol of data that an address is in, or None."""
        j = bisect_right(self.data_at, addr) - 1
        return self.data[j] if j >= 0 and addr < self.data[j].addr + self.data[j].size else None

    def words(self, text):
        """The addresses of all words of a symbol, or of the one word that a WORD means."""
        first, (_, size) = self.word(text), self._place(text)
        return range(first, min(first + max(4, size), self.size), 4)

    def _named(self, text):
        """The symbol of a name as the image has it, or as it is told. `pool` is a static variable in a function, if only one is called so."""
        if text in self.by_name:
            return self.by_name[text]
        names = self._local_names()
        found = [s for s, name in names.items() if text in (name, name.rpartition("::")[2])]
        if len(found) > 1:
            raise NoWord(text, "there are several: " + ", ".join(sorted(names[s] for s in found)))
        return found[0] if found else None

    def _place(self, text):
        """(address, bytes) of a variable, of a part of one as `queue.count` or `ring[3].seq`, or of a hexadecimal number; 4 bytes if
        there is an offset."""
        base, plus, _ = text.partition("+")
        symbol, part = self._named(base), re.match(r"([\w:$]+)((?:\.[A-Za-z_]\w*|\[\d+\])+)$", base)
        if symbol:
            return symbol.addr, 4 if plus else symbol.size
        if part and self._named(part[1]):
            return self._part(text, self._named(part[1]), part[2], plus)
        if re.fullmatch(r"(0[xX])?[0-9A-Fa-f]{1,8}", base):
            return int(base, 16), 4
        raise NoWord(text, "there is no such symbol, and it isn't a hexadecimal number")

    def _part(self, text, symbol, path, plus):
        found = self.fields.part(symbol.addr, path)
        if found is None:
            raise NoWord(text, "%s has no part %s, or the image doesn't say so" % (symbol.name, path))
        away, size = found
        if not plus and (size < 4 or (symbol.addr + away) % 4):
            raise NoWord(text, "it is no word: it has %d bytes, from %08X on" % (size, symbol.addr + away))
        return symbol.addr + away, 4 if plus else size

    def word(self, text):
        """The address that a WORD means: a variable, a part of one or a hexadecimal number, then perhaps `+OFFSET`, decimal or 0x.."""
        (addr, _), (_, plus, offset) = self._place(text), text.partition("+")
        if plus:
            if not re.fullmatch(r"0[xX][0-9A-Fa-f]{1,8}|[0-9]{1,8}", offset):
                raise NoWord(text, "the offset isn't a number")
            addr += int(offset, 0)
        if addr >= self.size:
            raise NoWord(text, "it isn't in the memory")
        return addr & ~3
