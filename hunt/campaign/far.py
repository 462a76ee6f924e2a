"""A batch of tries on another machine: `python3 -m campaign.far BATCH SEED TRIES` in a bundle's folder prints one line, which
read_line reads. The line has a sum, so that half a line isn't taken for one.

TRIES are the numbers of tries, as `0-99,120`. With s settings, number s * k + j is seed SEED + k with setting j."""

import base64
import hashlib
import json
import os
from pathlib import Path
import sys
import zlib

from lib import engine
from lib.engine import NoEngine
from lib.searching import Refused

from . import plans
from .pool import Done, tried
from .program import Failed, Scratch
from .trying import Campaign, Result, Trier

WORD = "delorean-seeds"


def ranges_of(numbers):
    """Rising numbers as a text, `0-99,120`."""
    parts = []
    for number in numbers:
        if parts and parts[-1][1] == number - 1:
            parts[-1][1] = number
        else:
            parts.append([number, number])
    return ",".join("%d-%d" % (a, b) if a < b else str(a) for a, b in parts)


def numbers_of(text):
    return [number for part in text.split(",") for number in plans.read_range(part, "tries")]


# ---------------------------------------------------------------- lines


def line_of(batch, done):
    """The line of a Done; its failure is told by its kind and text."""
    results = [[*result[:5], result.log and base64.b64encode(result.log).decode()] for result in done.results]
    failure = done.failure and [type(done.failure).__name__, str(done.failure)]
    data = base64.b64encode(zlib.compress(json.dumps([results, failure]).encode())).decode()
    return "%s %s %s %s" % (WORD, batch, hashlib.sha256(data.encode()).hexdigest()[:16], data)


def read_line(line):
    """The Done of a line, or None if it isn't whole. What another machine sends is data, and nothing of it is run."""
    words = line.split()
    if len(words) != 4 or words[0] != WORD or hashlib.sha256(words[3].encode()).hexdigest()[:16] != words[2]:
        return None
    results, failure = json.loads(zlib.decompress(base64.b64decode(words[3])))
    results = [Result(*result[:5], result[5] and base64.b64decode(result[5])) for result in results]
    return Done(int(words[1]), results, failure and failure_of(*failure))


def failure_of(kind, text):
    from lib.judge import Differs

    return {"Differs": Differs, "Failed": Failed}.get(kind, Refused)(text)


# ---------------------------------------------------------------- the other machine


def campaign_here():
    described = json.loads(Path("campaign.json").read_text())
    plan = plans.Plan(described["values"], described["number"], described["sum"])
    program = [str(Path("delorean").resolve())]
    return Campaign(program, plan, described["settings"], described["bad"], described["most_events"])


def take_engine():
    """The bundle's engine in place of one that would be built here."""
    def built():
        if not Path("engine").is_file():
            raise NoEngine("the bundle has no engine")
        return str(Path("engine").resolve())

    engine.built = built


def main(batch, first, text):
    campaign = campaign_here()
    os.environ["DELOREAN"] = campaign.program[0]
    take_engine()
    count = len(campaign.settings)
    tries = [(number % count, int(first) + number // count) for number in numbers_of(text)]
    scratch = Scratch()
    try:
        print(line_of(batch, tried(Trier(campaign, scratch.folder), 0, tries)), flush=True)
    finally:
        scratch.close()


if __name__ == "__main__":
    main(*sys.argv[1:])
