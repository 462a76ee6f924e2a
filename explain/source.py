"""Sources of the assembler: `read_source(data)` raises Broken with the first line that breaks a rule, and the first of
rules.SOURCE that it breaks."""

from collections import namedtuple
import difflib
import re

from explain.refusal import Broken
from explain.shown import count, number, quoted
from explain.statements import A, DISTANCES, M, MOST_WORDS, PSEUDO, R, STATEMENTS, ZEROS, form
from explain.words import range_of

SYNTAX, MNEMONIC, OPERANDS, RANGE, LABEL_TWICE, NO_LABEL, TOO_LONG = range(1, 8)

NAME = r"[A-Za-z_][A-Za-z0-9_]*"
LABEL = re.compile(rb"[ \t]*([A-Za-z_][A-Za-z0-9_]*):")
BLANK_BEFORE_COLON = re.compile(rb"[ \t]*[A-Za-z_][A-Za-z0-9_]*[ \t]+:")
LINE = re.compile(r"[ \t]*(?:(%s):)?[ \t]*(?:([A-Za-z_.][A-Za-z0-9_.]*)(?:[ \t]+(.*?))?)?[ \t]*(?:#.*)?" % NAME, re.ASCII)
VALUE = r"-?0x[0-9A-Fa-f]{1,8}|-?(?:0|[1-9][0-9]*)|" + NAME
OPERAND = re.compile(r"(%s)?(?:[ \t]*\([ \t]*(%s)[ \t]*\))?" % (VALUE, VALUE), re.ASCII)
REGISTER = re.compile(r"x([0-9]|[12][0-9]|3[01])", re.ASCII)

# wrong: what is wrong with the form of the line, or None. operands: a list of Operand.
Line = namedtuple("Line", "label mnemonic operands wrong")
# value, register: texts, or None if the operand has no such part. in_brackets: whether it ends with a part in brackets.
Operand = namedtuple("Operand", "text value register in_brackets")


def read_source(data):
    texts = data.split(b"\n")
    lines = [read_line(text) for text in (texts[:-1] if not texts[-1] else texts)]
    labels, address = {}, 0
    starts = []
    for n, line in enumerate(lines):
        starts.append(address)
        if line.label:
            labels.setdefault(line.label, (n, address))
        address += 4 * words_of(line)
    for n, line in enumerate(lines):
        check_line(n, line, starts[n], labels)


def check_line(n, line, address, labels):
    for rule, check in ((SYNTAX, wrong_form), (MNEMONIC, wrong_mnemonic), (OPERANDS, wrong_operands)):
        wrong = check(line)
        if wrong:
            raise broken(n, rule, *wrong)
    values = list(named_values(line))
    for kind, text in values:
        wrong = wrong_value(kind, text, address, labels)
        if wrong:
            raise broken(n, RANGE, *wrong)
    if line.label and labels[line.label][0] != n:
        raise broken(n, LABEL_TWICE, "line %d has the label %s too" % (labels[line.label][0] + 1, quoted(line.label)))
    for _, text in values:
        if is_name(text) and text not in labels:
            raise broken(n, NO_LABEL, "no line has the label %s" % quoted(text), near_label(text, labels))
    if address + 4 * words_of(line) > 4 * MOST_WORDS:
        raise broken(n, TOO_LONG, "up to its end the code has %s bytes, over 16,777,216" % number(address + 4 * words_of(line)))


def broken(n, rule, found, to_do=None):
    return Broken((n + 1, rule), found, "line %d" % (n + 1), to_do)


# ---------------------------------------------------------------- the form of a line


def read_line(text):
    """text: the bytes of one line. A line has the label that it begins with, whatever follows."""
    label = LABEL.match(text)
    label = label[1].decode() if label else None
    odd = next((byte for byte in text if not (32 <= byte < 127 or byte == 9)), None)
    if odd is not None:
        return Line(label, None, [], odd_character(odd))
    if BLANK_BEFORE_COLON.match(text):
        return Line(label, None, [], ("a blank is before the label's colon", "Take it out."))
    found = LINE.fullmatch(text.decode("ascii"))
    if not found:
        return Line(label, None, [], ("it doesn't have the form of a line", None))
    operands = [read_operand(part.strip(" \t")) for part in found[3].split(",")] if found[3] else []
    for operand in operands:
        if operand.value is None and operand.register is None:
            found = "%s has the form of no operand" % (quoted(operand.text) if operand.text else "an empty part")
            return Line(label, None, [], (found, "An operand is a register, a number, a label, or as `4(x2)` or `(x2)`."))
    return Line(label, found[2], operands, None)


def odd_character(byte):
    if byte == 13:
        return "it has a carriage return", "Lines end with LF alone: `tr -d '\\r'` takes them out."
    return "it has the byte %02X, which isn't printable ASCII" % byte, "Take it out, also from a comment."


def read_operand(text):
    found = OPERAND.fullmatch(text)
    if not found or not text:
        return Operand(text, None, None, False)
    return Operand(text, found[1], found[2], found[2] is not None)


def wrong_form(line):
    return line.wrong


# ---------------------------------------------------------------- mnemonics and operands


def wrong_mnemonic(line):
    name = line.mnemonic
    if name is None or name in STATEMENTS:
        return None
    if name in PSEUDO:
        return "%s is a pseudo-instruction" % quoted(name), "Write `%s` in its place." % PSEUDO[name]
    near = difflib.get_close_matches(name.lower(), STATEMENTS, 1)
    return "%s is no mnemonic" % quoted(name), "Did you mean %s?" % quoted(near[0]) if near else None


def wrong_operands(line):
    if line.mnemonic is None:
        return None
    kinds, to_do = STATEMENTS[line.mnemonic], "Write it as `%s`." % form(line.mnemonic)
    if len(kinds) != len(line.operands):
        return "%s has %s, but it takes %d" % (quoted(line.mnemonic), count(len(line.operands), "operand"), len(kinds)), to_do
    for kind, operand in zip(kinds, line.operands):
        if not fits(kind, operand):
            return "%s doesn't fit there" % quoted(operand.text), hint(operand) or to_do
    return None


def hint(operand):
    """What to do about a register by another name."""
    if any(re.fullmatch("zero|ra|sp|gp|tp|fp|[tsa][0-9]+", text or "") for text in (operand.value, operand.register)):
        return "Registers are `x0` to `x31`."
    return None


def is_register(text):
    return text is not None and REGISTER.fullmatch(text) is not None


def is_name(text):
    return re.fullmatch(NAME, text, re.ASCII) is not None and not is_register(text)


def fits(kind, operand):
    if kind == R:
        return not operand.in_brackets and is_register(operand.value)
    if kind in (M, A):
        has_value = operand.value is not None
        return is_register(operand.register) and has_value == (kind == M) and not is_register(operand.value)
    return not operand.in_brackets and not is_register(operand.value) and not (kind is ZEROS and is_name(operand.value))


def is_well_formed(line):
    return not (wrong_form(line) or wrong_mnemonic(line) or wrong_operands(line))


def words_of(line):
    """The words of a line; one that breaks rule 3 counts as its mnemonic alone says."""
    if line.wrong or line.mnemonic not in STATEMENTS:
        return 0
    if line.mnemonic != ".zero":
        return 1
    words = number_of(line.operands[0].value) if is_well_formed(line) else 0
    return words if in_range(ZEROS, words) else 0


# ---------------------------------------------------------------- values


def named_values(line):
    """The range and the text of each value of the line."""
    for kind, operand in zip(STATEMENTS.get(line.mnemonic, ()), line.operands):
        if kind == M:
            yield OFFSET, operand.value
        elif kind not in (R, A):
            yield kind, operand.value


OFFSET = STATEMENTS["addi"][2]


def number_of(text):
    if len(text) > 20:
        return -(1 << 64) if text.startswith("-") else 1 << 64
    return int(text, 16 if "0x" in text else 10)


def in_range(kind, v):
    return kind.least <= v <= kind.most and v % kind.step == 0


def wrong_value(kind, text, address, labels):
    v = value_of(kind, text, address, labels)
    if v is None or in_range(kind, v):
        return None
    wanted = "%s%s" % (range_of(kind.least, kind.most), " and even" if kind.step == 2 else "")
    found, to_do = quoted(text), ""
    if is_name(text):
        found = "the %s %s, %d," % ("distance to" if kind in DISTANCES else "address of", quoted(text), v)
        to_do = "Bring them closer, or jump in two steps." if kind in DISTANCES else "Build it with `lui` and `addi`."
    return "%s is out of range: it has to be %s" % (found, wanted), to_do


def value_of(kind, text, address, labels):
    """The value of a number or a label, or None if no line has the label."""
    if not is_name(text):
        return number_of(text)
    if text not in labels:
        return None
    return labels[text][1] - (address if kind in DISTANCES else 0)


def near_label(text, labels):
    near = difflib.get_close_matches(text, labels, 1)
    return "Did you mean %s?" % quoted(near[0]) if near else None
