"""`hunt/seeds PLAN --bad CONDITION ..`: `main(words)` conducts a campaign, and says what came of it."""

import contextlib
from pathlib import Path
import sqlite3
import sys

from lib.conditions import BadCondition
from lib.judge import Differs
from lib.searching import Refused

from . import plans, slurm, words
from .conduct import LISTED, Conductor, Keeping, Stop
from .identity import identity_of
from .machines import Machines, read_logins
from .pool import Pool
from .program import Failed, Scratch, find_program
from .progress import Progress
from .trying import BAD, LIVE, OUTCOMES, Campaign, condition_of


def campaign_of(given):
    plan = plans.read_plan(given.plan, given.sphere)
    settings = plans.settings_of(plans.read_varied(given.vary))
    most = given.most_events
    if most is None:
        most = min(plans.MOST_EVENTS, 16 * max([plans.events_of(plan, setting) or 0 for setting in settings]))
    campaign = Campaign(find_program(), plan, settings, given.bad, most)
    condition_of(campaign)
    return campaign


def conduct(given):
    campaign = campaign_of(given)
    if given.slurm:
        slurm.write(given)
        return 0
    keeping = Keeping(given.keep)
    with contextlib.closing(keeping):
        keeping.open(identity_of(campaign), campaign.plan.values, given.resume)
        return conduct_in(keeping, campaign, given)


def conduct_in(keeping, campaign, given):
    """The status with which the command ends."""
    names = [plans.setting_name(setting) for setting in campaign.settings]
    progress = Progress(len(given.seeds) * len(names) - keeping.store.count(names, given.seeds))
    stop, scratch = Stop(), Scratch()
    conductor = Conductor(campaign, given.seeds, keeping, progress, given.stop_after, stop)
    pool = None
    try:
        pool = workers(campaign, given, progress.total, scratch)
        conductor.conduct(pool)
    finally:
        if pool:
            pool.close()
        scratch.close()
        progress.clear()
        if pool and (progress.done or not conductor.failure):
            tell(conductor, progress, given)
    return 130 if stop.is_set else 0 if keeping.store.counts()[BAD] else 1


def workers(campaign, given, total, scratch):
    """The processes that try: here, or on other machines."""
    if not given.sshlogin and not given.sshloginfile:
        return Pool(campaign, min(given.jobs, total), scratch)
    joblog = Path(given.keep) / "joblog" if given.keep else None
    return Machines(campaign, read_logins(given.sshlogin, given.sshloginfile), given.seeds.start, scratch, joblog)


def outcomes_text(counts):
    tries = "1 try" if sum(counts) == 1 else "%d tries" % sum(counts)
    return "%s: %s" % (tries, ", ".join("%d %s" % pair for pair in zip(counts, OUTCOMES)))


def tell(conductor, progress, given):
    """The last lines: what was tried, and where more is said."""
    if conductor.listed > LISTED:
        print("and %d more" % (conductor.listed - LISTED))
    print(outcomes_text(progress.counts))
    if progress.counts[LIVE]:
        print("live: threads could go on after %d events; --most-events gives more" % conductor.campaign.most_events)
    if conductor.had:
        print("with those of before: %s" % outcomes_text(conductor.store.counts()))
    if conductor.stop.is_set:
        print("stopped; %s" % ("--resume goes on from here" if given.keep else "nothing is kept without --keep"))


def main(texts):
    try:
        return conduct(words.read(texts))
    except (BadCondition, Failed, OSError, Refused, sqlite3.Error) as error:
        print("seeds: %s" % error, file=sys.stderr)
        return 2
    except Differs as error:
        print("seeds: %s" % error, file=sys.stderr)
        return 3
