"""How names, words and numbers are shown in a sentence: on one line, and with no character that a terminal would act on."""

import json


def shown(text):
    """A name or a word as it is, with an escape for each character that can't be printed."""
    return "".join(c if c.isprintable() else escape(c) for c in text)


def escape(c):
    code = ord(c)
    return "\\x%02X" % (code - 0xDC00 if 0xDC80 <= code < 0xDD00 else code)


def quoted(text):
    """A word as code."""
    return "`%s`" % shown(shortened(text))


def shortened(text, most=60):
    return text if len(text) <= most else text[: most - 2] + ".."


def value(v):
    """A value of a TOML document as it could be written there."""
    if isinstance(v, bool):
        return "true" if v else "false"
    if isinstance(v, str):
        return shown(shortened(json.dumps(v, ensure_ascii=False)))
    return shown(shortened(str(v)))


def number(v):
    """A number with commas, as the pages write it."""
    return format(v, ",")


def count(n, what):
    """For example `1 byte`, `2 bytes`."""
    return "%s %s" % (number(n), what if n == 1 else what + "s")


def listed(items, last="or"):
    """For example `a, b or c`."""
    items = list(items)
    return items[0] if len(items) == 1 else "%s %s %s" % (", ".join(items[:-1]), last, items[-1])
