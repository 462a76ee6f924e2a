"""Plans that record a program."""

from pathlib import Path

from .schedule import schedule
from .words import DRAWN

PLAN = """\
cores = %(cores)d
chunk = %(chunk)d
buffer = 64
window = 1
signature = 1024
seed = %(seed)d
%(schedule)s
console = "%(name)s.console"
report = "%(name)s.report"

[[sphere]]
image = "%(image)s"
memory = %(memory)d
role = "record"
mode = "order-size"
version = %(version)d
log = "%(name)s.log"
account = "%(name)s.txt"
"""

def _schedule(words, base):
    """The plan's line; with more threads than are drawn, the script that it names is written."""
    numbers = words.numbers
    if numbers["threads"] <= DRAWN:
        return "events = %d" % numbers["events"]
    script = base + ".script"
    Path(script).write_text(schedule(numbers["events"], *(numbers[name] for name in ("cores", "threads", "chunk", "seed"))))
    return 'script = "%s"' % script


def write_plan(words, memory):
    numbers = words.numbers
    name = words.output.removesuffix(".elf")
    Path(words.plan).write_text(PLAN % {
        **numbers, "name": name, "image": words.output, "memory": memory, "version": 1 if numbers["threads"] <= 15 else 2,
        "schedule": _schedule(words, name)})
