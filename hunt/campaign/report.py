"""`hunt/seeds report FOLDER`: how often runs fail, by each setting, and which of the finds are the same bug."""

import argparse
from collections import Counter
import contextlib
import json
from pathlib import Path
import sqlite3
import sys

from lib.account import NotWalked
from lib.conditions import BadCondition
from lib.engine import NoEngine
from lib.judge import Differs
from lib.searching import Refused, counted
from lib.stacks import stack_lines
from lib.telling import columns

from . import plans
from .bugs import Grouping
from .identity import files_sum
from .rates import by_setting, by_value, rate_of, seeds_for
from .store import open_folder
from .trying import HUNG, OUTCOMES, Campaign, condition_of

SHOWN = 12  # settings, at most


def words(texts):
    p = argparse.ArgumentParser(prog="seeds report", description=__doc__)
    p.add_argument("folder", metavar="FOLDER", help="what --keep named")
    p.add_argument("--seconds", type=float, default=60, metavar="N", help="shrink finds for about so long (60); 0 for none")
    return p.parse_args(texts)


def percent(rate):
    return "%.3g%%" % (100 * rate)


def rate_lines(rates):
    yield ["setting", "tries", "bad", "rate", "95%", "seeds for 95%"]
    for rate in rates:
        share = percent(rate.bad / rate.tries) if rate.tries else "-"
        needed = seeds_for(rate.bad / rate.tries if rate.tries else 0)
        interval = "%s to %s" % (percent(rate.low), percent(rate.high))
        yield [rate.name or "the plan's", str(rate.tries), str(rate.bad), share, interval, str(needed or "-")]


def rates_text(rows):
    """How often runs fail: by each value, if several keys were varied, and by each setting."""
    parts = [by_value(rows), by_setting(rows)]
    for rates in filter(None, parts):
        yield ""
        yield from columns(list(rate_lines(rates[:SHOWN])))
        if len(rates) > SHOWN:
            yield "and %d settings that fail less" % (len(rates) - SHOWN)
    yield from ("", *needed_text(rate_of("", sum(row[1] for row in rows), sum(row[2] for row in rows))))


def needed_text(rate):
    if rate.bad == 0:
        yield "no run was bad; so, with 95%%, at most %s of runs are" % percent(rate.high)
        if rate.high < 1:
            yield "a failure that is as frequent as that is met by %s with 95%%" % counted(seeds_for(rate.high), "further seed")
    else:
        yield "all together: %d of %d runs failed" % (rate.bad, rate.tries)
        yield "such a failure is met by %s with 95%%, and by %d if the rate is at the lower end of its interval" % (
            counted(seeds_for(rate.bad / rate.tries), "seed"), seeds_for(rate.low))


# ---------------------------------------------------------------- bugs


def name_of(find):
    return ", ".join(filter(None, ["seed %d" % find.seed, find.setting]))


def ends_text(finds):
    ends = Counter("%s%s" % (find.threads, " console %s" % find.console if find.console else "") for find in finds)
    return ["%s: %d" % pair for pair in ends.most_common(5)] + (["and %d other ends" % (len(ends) - 5)] if len(ends) > 5 else [])


def mark_text(trace, mark):
    pc, word = mark
    return "%s, %s" % (trace.names.place(pc), trace.names.name(word)) if word is not None else trace.names.place(pc)


def bug_text(number, bug, log):
    least = bug.least
    yield "bug %d, %s: %s, the least from %s" % (number, least.find.outcome, counted(len(bug.finds), "find"), name_of(least.find))
    yield "  %s: %s, %d forced; walked" % (log, counted(least.told.log.count, "commit"), least.measure[0])
    for mark in sorted(least.marks, key=str):
        yield "  a thread is left before %s" % mark_text(least.trace, mark)
    yield from ("  " + line for line in stack_lines(least.trace))
    yield from ("  " + line for line in ends_text(bug.finds))


def bugs_text(folder, grouping, finds):
    bugs, left = grouping.bugs(finds)
    yield ""
    yield "%s among %s" % (counted(len(bugs), "bug"), counted(len(finds) - len(left), "find"))
    for number, bug in enumerate(bugs, 1):
        log = Path(folder) / ("bug-%d.log" % number)
        log.write_bytes(bug.least.log)
        yield from bug_text(number, bug, log)
    if left:
        yield "%s shrunk in time; they end so:" % ("1 find wasn't" if len(left) == 1 else "%d finds weren't" % len(left))
        yield from ("  " + line for line in ends_text(left))


def grouping_of(store, seconds):
    identity, values = store.identity(), store.values()
    plan = plans.Plan(values, int(identity.sphere), identity.plan_sum)
    if files_sum(plan) != identity.files_sum:
        raise Refused("the image, the input or the script is another one than in the campaign")
    image, condition = condition_of(Campaign(None, plan, [{}], json.loads(identity.bad), 0))
    return Grouping(values["sphere"][plan.number], image, condition, values.get("input"), store, seconds)


def report(given):
    with contextlib.closing(open_folder(given.folder)) as store:
        counts, seeds = store.counts(), store.seeds()
        if seeds[0] is None:
            raise Refused("nothing was tried yet")
        print("seeds %d to %d: %d tries, %s" % (*seeds, sum(counts), ", ".join("%d %s" % pair for pair in zip(counts, OUTCOMES))))
        print("\n".join(rates_text(store.rates())))
        if counts[HUNG]:
            print("%s hung, which isn't counted as bad here; with --bad hang it is" % counted(counts[HUNG], "run"))
        finds = store.finds()
        if finds and given.seconds > 0:
            for line in bugs_text(given.folder, grouping_of(store, given.seconds), finds):
                print(line, flush=True)
    return 0


def main(texts):
    try:
        return report(words(texts))
    except NoEngine as error:
        print("seeds report: finds aren't put together: %s" % error, file=sys.stderr)
        return 2
    except NotWalked as error:
        print("seeds report: the walk failed: %s" % error.args[0], file=sys.stderr)
        return 2
    except (BadCondition, Refused, OSError, sqlite3.Error) as error:
        print("seeds report: %s" % error, file=sys.stderr)
        return 2
    except Differs as error:
        print("seeds report: %s" % error, file=sys.stderr)
        return 3
