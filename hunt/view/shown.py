"""Names and bytes of a program as printable text: whatever is not printable is escaped, so it can't turn a terminal or a page."""


def shown(text):
    """The text, with each character that isn't printable as \\x1B or \\u202E."""
    if text.isprintable():
        return text
    return "".join(c if c.isprintable() else _escape(ord(c)) for c in text)


def _escape(number):
    return "\\x%02X" % number if number < 0x100 else "\\u%04X" % number if number < 0x10000 else "\\U%08X" % number


def shown_bytes(data, most=40):
    """Bytes in quotes, as much of them as `most`."""
    text = "".join(chr(b) if 0x20 <= b < 0x7F and b not in b'"\\' else "\\x%02X" % b for b in data[:most])
    return '"%s"%s' % (text, "" if len(data) <= most else ".. (%d bytes)" % len(data))
