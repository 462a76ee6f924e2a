"""A plan's bytes as a TOML document, and the lines on which its keys are."""

import re
import tomllib

from explain.refusal import Broken, Unreadable

MOST_LINES = 2000  # of a longer document no lines are told


class Document:
    """top: the table. `line(*path)` is the number of the line of a key, for example ("sphere", 0, "log"), or None."""

    def __init__(self, data):
        self.text = decoded(data)
        self.lines = self.text.split("\n")
        try:
            self.top = tomllib.loads(self.text)
        except tomllib.TOMLDecodeError as error:
            raise not_toml(str(error), self.lines) from None
        wide = first_wide(self.top)
        if wide:
            raise Broken((1,), "a number is outside those of TOML, which are -2^63 to 2^63 - 1", self.place(*wide), "Change it.")

    def line(self, *path):
        """A line has a key if the document up to it has the key, and the document up to the line before hasn't."""
        name = [part for part in path if isinstance(part, str)][-1]
        if len(self.lines) > MOST_LINES:
            return None
        for n, text in enumerate(self.lines, 1):
            if name in text and self.has(n, path) is True and self.has(n - 1, path) is False:
                return n
        return None

    def has(self, n, path):
        """Whether the first n lines have something at the path, or None if they aren't a document."""
        try:
            found = tomllib.loads("\n".join(self.lines[:n]) + "\n")
        except tomllib.TOMLDecodeError:
            return None
        try:
            for part in path:
                found = found[part]
        except (LookupError, TypeError):
            return False
        return True

    def place(self, *path):
        """Where a key is: `line 3`, or nothing."""
        n = self.line(*path)
        return "line %d" % n if n else ""


def decoded(data):
    try:
        text = data.decode("utf-8")
    except UnicodeDecodeError as error:
        before = data[: error.start]
        line, column = before.count(b"\n") + 1, len(before) - before.rfind(b"\n")
        place = "line %d, byte %d" % (line, column)
        raise Broken((1,), "a byte isn't UTF-8, and a TOML file is", place, "Save it as UTF-8.") from None
    return text[1:] if text.startswith("\ufeff") else text


def not_toml(error, lines):
    """From what Python's reader of TOML says: what it found, and where; or Unreadable if the program's reader may take it."""
    found = re.fullmatch(r"(.*) \(at (?:line (\d+), column (\d+)|end of document)\)", error, re.S)
    if not found:
        return Broken((1,), "it isn't TOML")
    what, line, column = found.groups()
    if line and NEWER.search(lines[int(line) - 1]):
        return Unreadable("a line that only a newer TOML may have")
    place = "line %s, column %s" % (line, column) if line else "the end of line %d" % last_line(lines)
    return Broken((1,), "it isn't TOML here: %s" % (what[:1].lower() + what[1:]), place)


# Python reads TOML 1.0, and the program TOML 1.1, which has more in inline tables, in escapes, and in dates and times.
NEWER = re.compile(r"\{|\\[ex]|\d\d:\d\d|\d{4}-\d\d-\d\d")


def last_line(lines):
    return max((n for n, text in enumerate(lines, 1) if text.strip()), default=1)


def first_wide(found, path=()):
    """The path of the first number that has no room in 64 bits, or None."""
    if isinstance(found, int):
        return None if -(1 << 63) <= found < 1 << 63 else path
    items = found.items() if isinstance(found, dict) else enumerate(found) if isinstance(found, list) else ()
    for part, item in items:
        wide = first_wide(item, (*path, part))
        if wide is not None:
            return wide
    return None
