"""The program's words: its commands, and what each operand has to be. `read_words(words)` gives a Command, or raises the
refusal `usage` with the word that is wrong."""

from collections import namedtuple
import difflib
import re

from explain.refusal import Refusal
from explain.shown import count, listed, number, quoted

COMMANDS = {
    "run": ("PLAN",),
    "inspect": ("LOG",),
    "walk": ("IMAGE", "MEMORY", "LOG"),
    "interval": ("IMAGE", "MEMORY", "LOG", "EVERY", "I", "J"),
    "tail": ("NAME",),
    "watch": ("IMAGE", "MEMORY", "LOG", "ADDR"),
    "who": ("IMAGE", "MEMORY", "LOG", "ADDR", "I"),
    "when": ("IMAGE", "MEMORY", "LOG", "ADDR", "VALUE"),
    "migrate": ("LOG", "NAME"),
    "strata": ("IMAGE", "MEMORY", "LOG", "NAME"),
    "make": ("NUMBER", "NAME"),
    "drill": ("NUMBER",),
    "asm": ("SOURCE", "NAME"),
}
MOST_MEMORY, MOST_COMMITS, MOST_WORD = 1 << 24, 1 << 24, (1 << 32) - 1
# The least and the most of an operand, and what it is a multiple of.
NUMBERS = {"MEMORY": (4096, MOST_MEMORY, 4096), "ADDR": (0, MOST_WORD, 4), "EVERY": (1, MOST_COMMITS, 1), "I": (0, MOST_COMMITS, 1),
           "J": (0, MOST_COMMITS, 1), "VALUE": (0, MOST_WORD, 1), "NUMBER": (0, MOST_WORD, 1)}

# operands: the values by their names in the synopsis, numbers as such.
Command = namedtuple("Command", "name operands")


def synopsis(name):
    return " ".join(("delorean", name, *COMMANDS[name]))


def read_words(words):
    """words: those after `delorean`."""
    if not words:
        raise usage("No command is given. %s" % all_commands())
    for word in words:
        if any("\ud800" <= c <= "\udfff" for c in word):
            raise usage("The word %s isn't UTF-8." % quoted(word))
    name = words[0]
    if name not in COMMANDS:
        raise usage("%s is no command. %s" % (quoted(name), closest(name)))
    given = operands(name, words[1:])
    return Command(name, numbers(name, dict(zip(COMMANDS[name], given))))


def usage(found):
    return Refusal(2, "usage", found)


def all_commands():
    return "The commands are %s." % listed(map(quoted, COMMANDS), "and")


def closest(name):
    """What may be meant by a word that is no command."""
    if name.startswith("-"):
        return "There are no options before a command. " + all_commands()
    near = difflib.get_close_matches(name, COMMANDS, 1)
    return "Did you mean `%s`?" % synopsis(near[0]) if near else all_commands()


def operands(name, words):
    """The words after a command: none of them an option, and as many as it takes."""
    taken, is_escaped = [], False
    for word in words:
        if not is_escaped and word == "--":
            is_escaped = True
        elif not is_escaped and word.startswith("-") and word != "-":
            found = "%s isn't an operand: there are no options, and a name that begins with - is given after `--`"
            raise misused(name, found % quoted(word))
        else:
            taken.append(word)
    wanted = COMMANDS[name]
    if len(taken) < len(wanted):
        missing = wanted[len(taken) :]
        raise misused(name, "%s %s missing" % (listed(missing, "and"), "is" if len(missing) == 1 else "are"))
    if len(taken) > len(wanted):
        raise misused(name, "%s is one word too many: %s takes %s" % (quoted(taken[len(wanted)]), name, count(len(wanted), "word")))
    return taken


def misused(name, found):
    """What is wrong with the words of a command, and its synopsis."""
    return usage("%s. The words are `%s`." % (found, synopsis(name)))


def numbers(name, given):
    """The operands with those that are numbers as such, in the order of the synopsis."""
    read = dict(given)
    for key in given:
        if key in NUMBERS:
            read[key] = one_number(name, key, given[key], *limits(key, read))
    if read.get("I", 0) > read.get("J", MOST_COMMITS):
        raise misused(name, "I is %d, and J is %d: I can't be over J" % (read["I"], read["J"]))
    return read


def limits(key, read):
    least, most, step = NUMBERS[key]
    return (least, read["MEMORY"] - 4, step) if key == "ADDR" else (least, most, step)


def one_number(name, key, word, least, most, step):
    if not re.fullmatch("0|[1-9][0-9]*", word, re.ASCII):
        wanted = "decimal digits, without a sign and without a 0 in front"
        raise misused(name, "%s is %s, but it has to be %s" % (key, quoted(word), wanted))
    v = int(word) if len(word) < 20 else 1 << 64
    if not least <= v <= most or v % step:
        raise misused(name, "%s is %s, but it has to be %s" % (key, quoted(word), range_of(least, most, step)))
    return v


def range_of(least, most, step=1):
    if most - least == 1:
        return "%d or %d" % (least, most)
    multiple = "" if step == 1 else "a multiple of %s from " % number(step)
    return "%s%s to %s" % (multiple, number(least), number(most))
