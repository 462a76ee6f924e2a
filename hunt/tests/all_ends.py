"""All that the search says of a program's ends, in one search, to be compared with what the interpreter has found."""

import support  # noqa: F401 (finds lib)
from lib.conditions import read_condition
from lib.engine import Engine, Options
from lib.symbols import Names
from small_programs import END_OF_WORDS, RESULTS, SHARED

NEVER = "word %X = 999" % SHARED
LIVE = 0


def outcome(end):
    """As small_programs.outcome tells it of a machine."""
    def word(address):
        return int.from_bytes(end.memory[address - SHARED:address - SHARED + 4], "little")
    return tuple([word(SHARED), word(SHARED + 4)] + [word(RESULTS + 4 * k) for k in range(len(end.threads))])


def met_ends(image, options=Options(steps=100000), *lines):
    """(how the search ended, outcomes with their fewest forced switches, whether an end was a hang). lines: for the engine."""
    engine = Engine(image, read_condition([NEVER], Names(image)), options)
    engine.send(*lines)
    engine.collect_ends(SHARED, END_OF_WORDS - SHARED)
    result = engine.search(60, 10**6, 1 << 22, 60)
    engine.close()
    found, hang = {}, False
    for end in result.ends:
        if any(status == LIVE for status, _ in end.threads):
            hang = True
        else:
            found[outcome(end)] = min(found.get(outcome(end), 1 << 30), end.forced)
    return result.how, found, hang
