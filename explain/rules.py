"""Each rule of each reader in words, with what to do. These are the texts of docs/answers.md too."""

from collections import namedtuple

# broken: what is wrong, as a part of a sentence. to_do: a sentence.
Rule = namedtuple("Rule", "broken to_do")

PLAN = {
    1: Rule("the plan isn't TOML", "Quote names, write each key once, and write `[[sphere]]` with two brackets."),
    2: Rule("a key isn't one of a plan, or is in the wrong place", "Keys of the top come before the first `[[sphere]]`."),
    3: Rule("a required key is missing, a value is of another type, or a role or mode has another name",
            "Write numbers without quotes and points, and names with quotes."),
    4: Rule("a number is out of its range, or there are no spheres or over 8", "Change the number."),
    5: Rule("there are both `events` and `script`, or neither", "Give exactly one; `events = 0` will do for a replay."),
    6: Rule("a sphere has a key that its role doesn't take, or lacks one that it needs",
            "Recorded: a mode and a log. Replayed: a log or strata, and no mode or version. Plain: none of the four."),
    7: Rule("a name is empty, or a written name is written twice or also read", "Give each written file a name of its own."),
    8: Rule("`chunk` is over 4,096, and a sphere is recorded in version 1", "Say `version = 2` in each recorded sphere."),
    9: Rule("`from` or `to` is in a sphere that doesn't replay a log, or `from` is over `to`",
            "To see a part of a recording, record it whole and replay the part of its log."),
    10: Rule("`epoch` is without `keep`, or `keep` without `epoch`, or they are in a sphere that isn't recorded in version 2",
             "Say `version = 2` in the recorded sphere, and give both."),
}

_CUT_IMAGE = "The file is cut or damaged: link it again."
IMAGE = {
    1: Rule("the file is shorter than the header of an ELF file", "Is it the linked program?"),
    2: Rule("the file isn't an ELF file", "Is it the linked program?"),
    3: Rule("the program isn't of 32 bits", "Compile it for riscv32."),
    4: Rule("the program isn't low byte first", "Compile it for riscv32."),
    5: Rule("the file isn't a program", "Link it, with -static and without -pie."),
    6: Rule("the program isn't for RISC-V", "Compile it for riscv32."),
    7: Rule("the program has compressed instructions, passes floating point in registers, or is for RV32E",
            "Compile it with -march=rv32ima -mabi=ilp32."),
    8: Rule("the program headers don't have 32 bytes each, or end past the file's end", _CUT_IMAGE),
    9: Rule("a segment's bytes end past the file's end, or are more than it has in memory", _CUT_IMAGE),
    10: Rule("a segment ends past the memory's end", "Raise the memory, or link the program to lower addresses."),
    11: Rule("two segments share an address", "Mend the linker's script."),
    12: Rule("the entry isn't a multiple of 4, or not in the memory", "Raise the memory, or set the entry."),
    13: Rule("no segment is loaded", "Is it the linked program, and not empty?"),
}

_DAMAGED = "The file is damaged: copy it again, or record it again."
LOG = {
    1: Rule("the file ends inside a field", "It was cut short: copy it again, or record it again."),
    2: Rule("the file doesn't begin as it should", "Is it the file that you mean?"),
    3: Rule("there is no such version", _DAMAGED),
    4: Rule("the mode isn't one of the three", _DAMAGED),
    5: Rule("a value is out of its range", _DAMAGED),
    6: Rule("an entry doesn't come after the one before it", _DAMAGED),
    7: Rule("bytes follow the last section", "Something was appended: cut the file to OFFSET bytes, or copy it again."),
}

STRATA = {number: rule for number, rule in LOG.items() if number != 4} | {
    8: Rule("a commit conflicts with an earlier one of another thread in its stratum",
            "Cut the log again, with `delorean strata` and this image."),
    9: Rule("a commit can't be done as the strata say",
            "Are these the image and the memory for which the log was cut?"),
}

SCRIPT = Rule("the line isn't empty, a comment or an event, or is the event after the 2^24th",
              "Write one event on a line, as in `place 0 0 1`, with spaces and without tabs, and a `#` only at the beginning.")

SOURCE = {
    1: Rule("the line doesn't have the form of a line", "Write it as `name: mnemonic operands # comment`."),
    2: Rule("the mnemonic is unknown", "There are the instructions of RV32IMA, `.word` and `.zero`, and no pseudo-instructions."),
    3: Rule("the operands aren't the statement's", "Write them as the statement has them."),
    4: Rule("a value is out of range", "Change it, or compute it in more instructions."),
    5: Rule("an earlier line has the label", "Rename one of the two."),
    6: Rule("no line has the label", "Is it spelled as on its line?"),
    7: Rule("the code is over 16,777,216 bytes", "Shorten it: no memory is larger."),
}

# Other answers, by status. There is no number to look up.
OTHERS = {
    2: Rule("the words mean no command", "Compare them with the synopsis."),
    6: Rule("a file could not be read or written", "Look at its folder, its permissions, and the room on its disk."),
    7: Rule("standard output failed, so the text is cut or missing, but all files are written",
            "Give the command again with another output."),
    8: Rule("memory ran out", "Take fewer spheres, smaller memories or fewer events, or raise a limit that is set."),
    10: Rule("a file that is to be read isn't there", "Names are looked up from the folder of the command."),
}

# By the word of a line after `refused`: the status, the place of the rule among the line's numbers, and the rules.
READERS = {"plan": (3, 0, PLAN), "image": (4, 1, IMAGE), "log": (5, 1, LOG), "strata": (5, 1, STRATA), "source": (9, 1, SOURCE)}


def named_rule(line):
    """The reader and the number of the rule that a line names, or None."""
    what, reader, *numbers = (line.split(" ") + [""])[:5]
    if what != "refused" or reader not in READERS:
        return None
    _, place, rules = READERS[reader]
    number = next((int(word) for word in numbers[place : place + 1] if word.isdigit()), None)
    return (reader, number) if number in rules else None


def rule_of(line):
    """The rule that a line names, or None."""
    if line.startswith("refused script "):
        return SCRIPT
    named = named_rule(line)
    return READERS[named[0]][2][named[1]] if named else None
