"""The words that delorean-cc is called with: `read_words(words)` gives `Words`, or raises Refused."""

from dataclasses import dataclass, field
import re
import shlex

USAGE = """usage: delorean-cc [FLAG..] SOURCE.. -o NAME.elf
Compiles and links a C program that uses pthreads and the C library, for delorean. Most flags are those of gcc. Of its own are:
  --plan FILE     writes a plan too, which records the program
  --events N      events of the plan (200000; with more than 16 threads 1000000); --cores N (4), --chunk N (16), --seed N (1)
  --args "A B"    the words that main gets after the program's name
  --stack BYTES   of each thread's stack (2048); the first thread has 6144 more
  --heap BYTES    of malloc (32768)
  --threads N     threads at once, with the first (15; up to 63 with logs of version 2)
  --event-time N  microseconds of an event, a power of ten (1)
  --spurious      each wait for a condition variable may return once without a signal
  --keep-freed    malloc gives out no block again, so what is stored to a freed one is found whenever it comes
  --clang         clang with lld, also if gcc is there"""

WITH_VALUE = {"-I", "-D", "-U", "-include", "-imacros", "-isystem", "-iquote", "-idirafter", "-MF", "-MT", "-MQ", "-x", "-L", "-l"}
COMPILE_ONLY = {"-c", "-S", "-E", "-M", "-MM", "-fsyntax-only"}
ALWAYS_SO = re.compile(r"-pthread|-l(pthread|m|c|rt|atomic)|-static|-f(pic|PIC|pie|PIE)|-(no-)?pie|-m(arch|abi|tune|cpu)=.*|-rdynamic")
REFUSED = [
    (re.compile(r"-fsanitize=.*"), "sanitizers need an operating system; hunt finds what they look for, in other ways"),
    (re.compile(r"-shared|-ldl"), "nothing is linked at run time here"),
    (re.compile(r"-fopenmp"), "there is no OpenMP here: take pthreads"),
    (re.compile(r".*\.(cc|cpp|cxx|C|c\+\+)"), "C++ needs a library that isn't here: only C is compiled"),
    (re.compile(r"-T.*|-nostdlib|-nostartfiles"), "the layout is the SDK's; examples/runtime/compile has a bare form"),
]


DRAWN = 16  # threads that drawn events place


class Refused(Exception):
    """args: the sentence."""


@dataclass
class Words:
    output: str | None = None
    compiles_only: bool = False
    passed: list = field(default_factory=list)   # to the compiler, in order
    sources: list = field(default_factory=list)  # those of `passed` that are files
    arguments: list = field(default_factory=list)
    numbers: dict = field(default_factory=lambda: {
        "stack": 2048, "heap": 32768, "threads": 15, "events": 0, "cores": 4, "chunk": 16, "seed": 1, "event-time": 1})
    plan: str | None = None
    spurious: bool = False
    keep_freed: bool = False
    clang: bool = False


LIMITS = {"stack": (512, 1 << 20), "heap": (0, 15 << 20), "threads": (1, 63), "events": (1, 1 << 24), "cores": (1, 8), "chunk": (16, 4096),
          "seed": (0, (1 << 63) - 1), "event-time": (1, 100000)}


def _number(name, text):
    least, most = LIMITS[name]
    if not text.isdecimal() or not least <= int(text) <= most:
        raise Refused("--%s is a number from %d to %d" % (name, least, most))
    return int(text)


def _own(words, name, value):
    if name in words.numbers:
        words.numbers[name] = _number(name, value)
    elif name == "plan":
        words.plan = value
    else:
        words.arguments = shlex.split(value)


def _one(words, word, rest):
    """Takes a word, with those of the rest that belong to it."""
    name, equals, value = word[2:].partition("=")
    if word.startswith("--") and (name in words.numbers or name in ("plan", "args")):
        _own(words, name, value if equals else _next(word, rest))
    elif word in ("--spurious", "--keep-freed", "--clang"):
        setattr(words, word[2:].replace("-", "_"), True)
    elif word == "-o":
        words.output = _next(word, rest)
    elif word in WITH_VALUE:
        value = _next(word, rest)
        if not ALWAYS_SO.fullmatch(word + value):
            words.passed += [word, value]
    elif not ALWAYS_SO.fullmatch(word):
        _pass(words, word)


def _pass(words, word):
    for pattern, why in REFUSED:
        if pattern.fullmatch(word):
            raise Refused("%s: %s" % (word, why))
    words.compiles_only |= word in COMPILE_ONLY
    words.passed.append(word)
    if not word.startswith("-"):
        words.sources.append(word)


def _next(word, rest):
    if not rest:
        raise Refused("%s has no value" % word)
    return rest.pop(0)


def read_words(given):
    words, rest = Words(), list(given)
    while rest:
        _one(words, rest.pop(0), rest)
    numbers = words.numbers
    if str(numbers["event-time"]).strip("0") != "1":
        raise Refused("--event-time is a power of ten from 1 to 100000")
    numbers["events"] = numbers["events"] or (200000 if numbers["threads"] <= DRAWN else 1000000)
    numbers["stack"] = (numbers["stack"] + 15) // 16 * 16
    numbers["heap"] = (numbers["heap"] + 63) // 64 * 64
    return words
