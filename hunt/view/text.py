"""A Picture for a terminal: a row a commit, a column a lane. `rows(picture, first, last, width, has_colour)`."""

from bisect import bisect_right

LEAST = 22  # characters of a column
RED, PLAIN = "\x1b[31;1m", "\x1b[0m"

KEY = ("counter=7<13: loads 7 of counter, which commit 13 stored; counter:=8: stores 8; counter!=8: an sc that failed; *3: three times; "
       "!: of what lost or aba found")


def rows(picture, first, last, width, has_colour=False):
    """The lines, of the commits that are told as first to last, and of the findings in these."""
    base = picture.trace.base
    first, last = max(first - base, 0), min(last - base, len(picture.lane) - 1)
    number = max(6, len(str(base + last)))
    column = max(LEAST, (width - number - 1) // max(1, len(picture.lanes)) - 1)
    yield " ".join(["commit".rjust(number), *(name[:column].ljust(column) for name in picture.lanes)]).rstrip()
    cells = _Cells(picture)
    for i in range(first, last + 1):
        head = str(base + i).rjust(number)
        for words in _wrapped(cells.of(i), column):
            yield head + " " * (1 + picture.lane[i] * (column + 1)) + " ".join(_coloured(words) if has_colour else words)
            head = " " * number
    if first <= last:
        entries = range(picture.first[first], picture.first[last + 1])
        yield from ("! " + finding.text for finding in picture.found if any(e in entries for e in finding.accesses))


def _wrapped(words, column):
    """The words in lines that fit, a word that doesn't fit alone in its own."""
    line = []
    for word in words:
        if line and len(" ".join(line + [word])) > column:
            yield line
            line = []
        line.append(word)
    yield line


def _coloured(words):
    return [RED + word + PLAIN if word.endswith("!") else word for word in words]


class _Cells:
    """What is in the box of a commit: its instructions or what it did, then its marks."""

    def __init__(self, picture):
        self.picture, self.found_by = picture, picture.found_by()
        self.red = {e for finding in picture.found for e in finding.accesses}

    def of(self, i):
        p = self.picture
        head = "[%d]" % p.size[i] if p.kind[i] == 0 else "[%s]" % (p.note[i] or "DMA")
        if p.kind[i] == 0 and p.note[i]:
            head += " " + p.note[i]
        return [head] + [self.mark(e, count) for e, count in p.marks(i)]

    def mark(self, e, count):
        p = self.picture
        addr, name = p.words[p.word[e]]
        sign = {"l": "=", "s": ":=", "f": "!="}[p.letter(e)]
        found = self.found_by[e]
        origin = "" if found is None else bisect_right(p.first, found) - 1
        origin = "" if origin in ("", bisect_right(p.first, e) - 1) else "<%d" % (p.trace.base + origin)
        times = "*%d" % count if count > 1 else ""
        is_red = any(x in self.red for x in self._entries(e, count))
        return "%s%s%s%s%s%s" % (name or "%08X" % addr, sign, _value(p.value[e]), origin, times, "!" if is_red else "")

    def _entries(self, e, count):
        """The entries of a mark: the next ones of the same word."""
        p, out, at = self.picture, [e], e
        while len(out) < count:
            at += 1
            if p.word[at] == p.word[e]:
                out.append(at)
        return out


def _value(value):
    return str(value) if value < 100000 else str(value - (1 << 32)) if value > 0xFFFFFC00 else "0x%X" % value
