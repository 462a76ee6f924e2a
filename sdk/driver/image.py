"""Linking, and what a plan needs to know of the image."""

from pathlib import Path
import os
import re
import subprocess
import sys
import tempfile

from .missing import explained
from .words import Refused

MAIN_EXTRA = 6144  # bytes that the first thread's stack has more than the others'
PAGE = 4096


def _quoted(text):
    return '"%s"' % "".join(chr(b) if 32 <= b < 127 and b not in (34, 92) else "\\%03o" % b for b in os.fsencode(text))


def settings(words):
    """What the library takes from the command, as assembler: the words of main, whether waits may return without a signal, how long an
    event is, and whether freed blocks are kept."""
    name = Path(words.output).name.removesuffix(".elf")
    texts = [name, *words.arguments]
    lines = ['.file "settings.S"', ".data", ".balign 4", ".globl __argument_count, __arguments"]
    lines += ["__argument_count: .word %d" % len(texts), "__arguments:"]
    lines += [" .word argument_%d" % j for j in range(len(texts))] + [" .word 0"]
    lines += ["argument_%d: .asciz %s" % (j, _quoted(text)) for j, text in enumerate(texts)]
    lines += [".section .rodata", ".balign 4", ".globl __spurious", "__spurious: .word %d" % words.spurious,
              ".globl __event_time", "__event_time: .word %d" % words.numbers["event-time"],
              ".globl __keep_freed", "__keep_freed: .word %d" % words.keep_freed]
    return "\n".join(lines) + "\n"


def _symbols(words):
    numbers = words.numbers
    given = {"__stack_size": numbers["stack"], "__most_threads": numbers["threads"], "__heap_size": numbers["heap"],
             "__main_extra": MAIN_EXTRA}
    return ["-Wl,--defsym=%s=%d" % pair for pair in given.items()]


def link(top, tools, folder, words, defaults):
    with tempfile.TemporaryDirectory() as aside:
        made = Path(aside) / "settings.S"
        made.write_text(settings(words))
        same = "-ffile-prefix-map=%s=sdk" % aside  # so that the image has the same bytes each time
        command = [*tools.compiler, *defaults, same, *words.passed, str(made), str(folder / "start.o"), "-nostdlib", "-static",
                   "-Wl,--build-id=none", "-Wl,-n", "-Wl,--gc-sections", *tools.linker, "-T", str(top / "lib/program.ld"), *_symbols(words),
                   "-Wl,--start-group", str(folder / "libdelorean.a"), str(folder / "libc.a"), *tools.archives[1:],
                   "-Wl,--end-group", "-o", words.output]
        done = subprocess.run(command, stderr=subprocess.PIPE, text=True, errors="replace")
    if done.returncode:
        raise Refused(explained(done.stderr))
    if done.stderr:
        print(done.stderr, end="", file=sys.stderr)


def memory_used(tools, image):
    """The memory that a plan needs, in whole pages."""
    out = subprocess.run([tools.names, image], capture_output=True, text=True, check=True).stdout
    used = int(re.search(r"^(\w+) \w memory_used$", out, re.M)[1], 16)
    return (used + PAGE - 1) // PAGE * PAGE
