"""The words of `hunt/seeds`, and what they mean."""

import argparse
import os

from lib.searching import CONDITIONS, Refused

from .plans import MOST_EVENTS, SETTINGS, read_range

DESCRIPTION = """\
Tries a plan with many seeds, on all processors, and counts how the runs end: good; bad, if a CONDITION is met; live, if
threads could go on when the events were over, even with more of them; hung, if no thread goes on and that isn't a
CONDITION. With --keep the logs of bad and hung runs are kept. They have been walked by the proved program. No name that
the plan writes is written.

    seeds report FOLDER           how often each setting fails, and which finds are the same bug
    seeds join INTO FOLDER ..     puts campaigns of one plan together"""

EPILOG = """\
CONDITION, of a bad end:
%s
A campaign looks at ends alone, so `ever` is for search and shrink.

KEY: %s. VALUES are numbers and ranges, as 16,32 or 1-4.

Status 0: a run was bad. 1: none was. 2: words or files won't do. 3: a walk says otherwise than its run, so the log isn't
kept. 130: stopped by Ctrl-C; what was done so far is kept.""" % (CONDITIONS, ", ".join(SETTINGS))

LOGIN = "tries on another machine, by GNU parallel: [N/][USER@]HOST[:PORT], with N at once; : is this one; may be given again"
MORE = "a run whose threads are live is tried with four times as many events, up to so many (16 times the plan's)"
SLURM = "try nothing, but write a script for sbatch that does: an array of tasks, each with a part of the seeds"


def parser():
    p = argparse.ArgumentParser(prog="seeds", description=DESCRIPTION, epilog=EPILOG,
                                formatter_class=argparse.RawDescriptionHelpFormatter)
    p.add_argument("plan", metavar="PLAN")
    p.add_argument("--bad", action="append", required=True, metavar="CONDITION",
                   help="what a bad end is, below; may be given again")
    p.add_argument("--seeds", default="1-1000", metavar="A-B", help="which seeds (1-1000)")
    p.add_argument("--vary", action="append", default=[], metavar="KEY=VALUES",
                   help="each seed with each of these values, below; may be given again")
    p.add_argument("--jobs", type=int, default=processors(), metavar="N", help="runs at once (one for each processor)")
    p.add_argument("--keep", metavar="FOLDER", help="where the campaign's file, and the logs and plans of finds are kept")
    p.add_argument("--resume", action="store_true", help="go on with the campaign in that folder")
    p.add_argument("--stop-after", type=int, metavar="K", help="stop after so many bad runs, the first ones in order")
    p.add_argument("--sphere", type=int, metavar="N", help="the sphere that is judged (the first that is recorded)")
    p.add_argument("--most-events", type=int, metavar="N", help=MORE)
    p.add_argument("--sshlogin", action="append", default=[], metavar="LOGIN", help=LOGIN)
    p.add_argument("--sshloginfile", action="append", default=[], metavar="FILE", help="a file of such logins, one to a line")
    p.add_argument("--slurm", metavar="SCRIPT", help=SLURM)
    p.add_argument("--tasks", type=int, default=100, metavar="N", help="so many tasks in that array (100)")
    return p


def processors():
    return len(os.sched_getaffinity(0))


def read(words):
    given = parser().parse_args(words)
    given.seeds = read_range(given.seeds, "--seeds")
    check_numbers(given)
    for option in ("resume", "slurm"):
        if getattr(given, option) and given.keep is None:
            raise Refused("--%s needs --keep, the folder of the campaign" % option)
    for option in ("stop_after", "sshlogin", "sshloginfile"):
        if given.slurm and getattr(given, option):
            raise Refused("--slurm and --%s don't go together" % option.replace("_", "-"))
    return given


def check_numbers(given):
    limits = ("jobs", 1, 10_000), ("stop_after", 1, None), ("most_events", 0, MOST_EVENTS), ("tasks", 1, 10_000)
    for name, least, most in limits:
        value = getattr(given, name)
        if value is not None and (value < least or (most is not None and value > most)):
            word = "--" + name.replace("_", "-")
            raise Refused("%s is at least %d%s" % (word, least, "" if most is None else " and at most %d" % most))
