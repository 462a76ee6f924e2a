"""The fields of a binary file in their order, each checked when it has been read whole, as the program does. What isn't good
raises Broken((number, offset), ..) by the numbers of rules.LOG."""

from explain.refusal import Broken
from explain.shown import count, listed, number
from explain.words import range_of

SHORT, MAGIC, VERSION, MODE, FIELD, NOT_SORTED, TRAILING = range(1, 8)


class Fields:
    """data: the bytes. at: the offset of the next field."""

    def __init__(self, data):
        self.data, self.at = data, 0

    def take(self, width, what):
        end = self.at + width
        if not self.data:
            raise Broken((SHORT, 0), "it is empty", "", "Is it the file that you mean?")
        if end > len(self.data):
            raise Broken((SHORT, len(self.data)), "the file ends inside %s (%s from byte %d on)"
                         % (what, count(width, "byte"), self.at), "byte %d" % len(self.data))
        self.at = end
        return self.data[end - width : end]

    def number(self, width, what, most=None, least=0, step=1, wrong=FIELD):
        """A number from `least` to `most`, which is a multiple of `step`."""
        start = self.at
        v = int.from_bytes(self.take(width, what), "little")
        if v < least or (most is not None and v > most) or v % step:
            wanted = "a multiple of %d" % step if most is None else range_of(least, most, step) if most > least else number(most)
            raise bad(wrong, start, what, v, wanted)
        return v

    def one_of(self, width, what, values, wrong=FIELD):
        start = self.at
        v = int.from_bytes(self.take(width, what), "little")
        if v not in values:
            raise bad(wrong, start, what, v, listed(map(number, values)))
        return v

    def beginning(self, wanted):
        """The four letters with which such a file begins."""
        start = self.at
        found = self.take(len(wanted), "the word %s" % wanted.decode())
        if found != wanted:
            what = "a log that begins with %s should be here" if start else "it doesn't begin with %s"
            raise Broken((MAGIC, start), what % wanted.decode(), "byte %d" % start,
                         "The file is damaged: copy it again." if start else looks_like(found))

    def rising(self, what, entry):
        """A counted section of entries. `entry(name)` reads one and gives its key; the keys have to rise."""
        last = None
        for i in range(self.number(4, "the number of %s" % what)):
            start = self.at
            key = entry("entry %d of %s" % (i, what))
            if last is not None and key <= last:
                raise Broken((NOT_SORTED, start), "entry %d of %s doesn't come after the one before it" % (i, what),
                             "byte %d" % start)
            last = key

    def end(self):
        more = len(self.data) - self.at
        if more:
            found = "%s %s the last section" % (count(more, "byte"), "follows" if more == 1 else "follow")
            raise Broken((TRAILING, self.at), found, "byte %d" % self.at,
                         "Something was appended: `head -c %d` gives the part before it." % self.at)


def bad(wrong, start, what, v, wanted):
    return Broken((wrong, start), "%s is %s, but it has to be %s" % (what, number(v), wanted), "byte %d" % start)


FOREIGN = {
    b"DLRN": "It is a log: `delorean walk` plays it, and a replayed sphere takes it by the key `log`.",
    b"DLRT": "It is a tail: `delorean tail` plays it, and no other command takes it.",
    b"DLRS": "It is strata, which only a replayed sphere takes, by the key `strata`.",
    b"\x7fELF": "It is an ELF file: are the names in the right order?",
}


def looks_like(beginning):
    """What another file may be, as a sentence, or None."""
    if beginning[:2] in (b"c ", b"t ", b"l ", b"en"):
        return "Is it an account?"
    return FOREIGN.get(beginning)
