"""What a bad end is, in words: `read_condition(texts, names)` is any of the texts, each of which is atoms with `and` between.

    exit THREAD = CODE       the thread has ended with the code; also != < > <= >=. THREAD is a number, or `any`
    fault [THREAD [= CAUSE]] it has faulted
    hang [THREAD]            it never ends: neither it nor any other thread goes on
    stuck [THREAD]           it never ends, in whatever order: no thread goes on, or those that do go round without an end
    word WORD = VALUE        at the end the word has the value; WORD is a symbol or an address, with +OFFSET or without
    console = TEXT           what was put on the console, or != TEXT
    console has TEXT
    ever word WORD = VALUE   at some moment the word has the value; all words of one `ever`, with `and` between, at the same moment
    overrun                  at some moment a thread's sp is below its stack; alone, and of an image of delorean-cc

Codes and values are decimal or 0x and hexadecimal digits. A word is compared as a signed number if VALUE is negative, and with `< 0`
and `>= 0`; else as an unsigned one. TEXT is a word of the shell, with \\n and \\xHH in it. An account
(Ended, below) meets the condition, or doesn't: that is looked up in the account alone.
"""

from collections import namedtuple
import re
import shlex

from .layout import SP, TP, is_below_packed, stacks_of

KINDS = ("exit", "fault", "hang", "word", "is", "has", "stuck", "ever", "overrun")
HANGS, MOMENTS = ("hang", "stuck"), ("ever", "overrun")
COMPARISONS = ("=", "!=", "<", ">", "<=", ">=")
SIGNED = len(COMPARISONS) - COMPARISONS.index("<")  # from a comparison to that of signed numbers
ANY = 255
HOLDS = (lambda a, b: a == b, lambda a, b: a != b, lambda a, b: a < b, lambda a, b: a > b, lambda a, b: a <= b,
         lambda a, b: a >= b, lambda a, b: signed(a) < signed(b), lambda a, b: signed(a) > signed(b),
         lambda a, b: signed(a) <= signed(b), lambda a, b: signed(a) >= signed(b))

Atom = namedtuple("Atom", "kind comparison thread value address text")


class BadCondition(Exception):
    pass


def number(text):
    if not re.fullmatch(r"-?(?:0x[0-9A-Fa-f]{1,8}|[0-9]{1,10})", text):
        raise BadCondition("%s isn't a number" % text)
    value = int(text, 0 if "x" in text else 10)
    if not -(1 << 31) <= value < 1 << 32:
        raise BadCondition("%s isn't one of 32 bits" % text)
    return value & 0xFFFFFFFF


def signed(value):
    return value - (1 << 32) if value >> 31 else value


def word_comparison(how, value):
    """The number of a comparison of words."""
    found = comparison(how)
    is_signed = value.startswith("-") or (value == "0" and how in ("<", ">="))
    return found + SIGNED if is_signed and found >= COMPARISONS.index("<") else found


def thread(text):
    if text == "any":
        return ANY
    if not re.fullmatch(r"[0-9]{1,2}", text) or int(text) > 62:
        raise BadCondition("%s is no thread" % text)
    return int(text)


def comparison(text):
    if text not in COMPARISONS:
        raise BadCondition("%s is none of %s" % (text, " ".join(COMPARISONS)))
    return COMPARISONS.index(text)


def text_bytes(text):
    try:
        return re.sub(rb"\\(n|t|\\|x[0-9A-Fa-f]{2})", unescaped, text.encode())
    except ValueError as error:
        raise BadCondition(str(error)) from None


def unescaped(match):
    what = match[1]
    return bytes.fromhex(what[1:].decode()) if what[:1] == b"x" else {b"n": b"\n", b"t": b"\t", b"\\": b"\\"}[what]


def read_atom(words, names):
    match words:
        case ["exit", who, how, code]:
            return Atom("exit", comparison(how), thread(who), number(code), 0, b"")
        case ["fault"]:
            return Atom("fault", COMPARISONS.index(">="), ANY, 0, 0, b"")
        case ["fault", who]:
            return Atom("fault", COMPARISONS.index(">="), thread(who), 0, 0, b"")
        case ["fault", who, how, cause]:
            return Atom("fault", comparison(how), thread(who), number(cause), 0, b"")
        case ["hang" | "stuck" as kind]:
            return Atom(kind, 0, ANY, 0, 0, b"")
        case ["hang" | "stuck" as kind, who]:
            return Atom(kind, 0, thread(who), 0, 0, b"")
        case ["word", word, how, value]:
            return Atom("word", word_comparison(how, value), 0, number(value), names.word(word), b"")
        case ["console", ("=" | "!=") as how, text]:
            return Atom("is", comparison(how), 0, 0, 0, text_bytes(text))
        case ["console", "has", text]:
            return Atom("has", 0, 0, 0, 0, text_bytes(text))
    raise BadCondition("`%s` is no condition" % " ".join(words))


def overrun(names):
    """The case that a thread's sp is below its stack. The atom's text says where stacks are."""
    stacks = stacks_of(names)
    if stacks is None:
        raise BadCondition("`overrun`: the image doesn't say where its stacks are; those of delorean-cc do, with their symbols")
    return [Atom("overrun", 0, ANY, 0, 0, stacks.packed())]


def split(words, between):
    parts = [[]]
    for word in words:
        if word == between:
            parts.append([])
        else:
            parts[-1].append(word)
    return parts


def read_case(words, names):
    if words == ["overrun"]:
        return overrun(names)
    atoms = [read_atom(part, names) for part in split(words[words[:1] == ["ever"] :], "and")]
    if words[:1] != ["ever"] or (len(atoms) == 1 and atoms[0].kind in ("exit", "fault")):
        return atoms
    if any(atom.kind != "word" for atom in atoms):
        raise BadCondition("`%s`: `ever` is of words alone, or of one fault or exit" % " ".join(words))
    return [atom._replace(kind="ever") for atom in atoms]


def is_of_moment(case):
    """Whether it holds at some moment, and not only at an end."""
    return any(atom.kind in MOMENTS for atom in case)


def read_condition(texts, names):
    """The cases, each a list of Atoms."""
    try:
        return [read_case(shlex.split(text), names) for text in texts]
    except ValueError as error:
        raise BadCondition(str(error)) from None


# ---------------------------------------------------------------- accounts


_TOLD = re.compile(rb"^(?:[thdm] |o 8 |end ).*", re.M)  # most lines of an account are of loads, and are passed over


class Ended:
    """What an account tells of the end: of each thread its state, the words of memory, and what the console got."""

    def __init__(self, account):
        self.threads, self.registers, self.rows, self.console, self.state = [], [], {}, b"", []
        self.commits, self.is_complete = account.count(b"\nc ") + account.startswith(b"c "), False
        for line in map(bytes.decode, _TOLD.findall(account)):
            words = line.split(" ")
            if words[0] == "t":
                status, _, code = words[3].partition(":")
                self.threads.append((status, int(code or 0)))
                self.registers.append([0] + [int(word, 16) for word in words[6:]])
            elif words[0] == "m":
                self.rows[int(words[1], 16)] = bytes.fromhex(words[2])
            elif words[:2] == ["o", "8"]:
                self.console += bytes.fromhex(words[2])
            elif words[:2] == ["end", "complete"]:
                self.is_complete = True
            if words[0] in ("t", "h", "d", "m"):
                self.state.append(line)

    def word(self, address):
        row = self.rows.get(address & ~31, bytes(32))
        return int.from_bytes(row[address & 28 : (address & 28) + 4], "little")

    def is_overrun(self, atom):
        return any(status == "live" and is_below_packed(atom.text, x[TP], x[SP]) for (status, _), x in zip(self.threads, self.registers))

    def holds_of_thread(self, atom, status, code):
        if atom.kind in HANGS:
            return status == "live"
        return status == {"exit": "ended", "fault": "fault"}[atom.kind] and HOLDS[atom.comparison](code, atom.value)

    def holds(self, atom):
        if atom.kind == "overrun":
            return self.is_overrun(atom)
        if atom.kind in ("word", "ever"):
            return HOLDS[atom.comparison](self.word(atom.address), atom.value)
        if atom.kind == "is":
            return HOLDS[atom.comparison](self.console, atom.text)
        if atom.kind == "has":
            return atom.text in self.console
        threads = self.threads if atom.thread == ANY else self.threads[atom.thread : atom.thread + 1]
        return any(self.holds_of_thread(atom, *thread) for thread in threads)

    def meets(self, condition, is_end):
        """Whether one of the cases holds. Where the run isn't at an end, exits, faults and moments alone tell anything."""
        return self.is_complete and any(
            all((is_end or atom.kind in ("exit", "fault", *MOMENTS)) and self.holds(atom) for atom in case) for case in condition)
