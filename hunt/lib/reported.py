"""An Outcome of hunt/find as text and as JSON."""

from collections import namedtuple
import shlex
import sys

from .advice import advice
from .chains import chain_text
from .chances import what_was_tried
from .engine import Drawn
from .finding import CLEAR, FOUND
from .found import LOG, PICTURE, PLAN, REPLAYED, command_in
from .searching import counted
from .story import CAUSES, thread_name


# program: as it was given. ready: the Program. told: of a find a Told, else None. seconds: from the command's start on. kept: the folder in
# which an earlier find stays, or None.
Outcome = namedtuple("Outcome", "program ready finding told seconds kept", defaults=(None,))


def progress(is_quiet):
    """What is called with each bound that is done: it says so on a terminal."""
    def tell(bound):
        print("%s: done, %s so far, %.1f s" % (forced_text(bound.bound), counted(bound.tries, "run"), bound.seconds),
              file=sys.stderr, flush=True)
    return tell if sys.stderr.isatty() and not is_quiet else lambda bound: None


def forced_text(number):
    return "without a forced switch" if number == 0 else "with %s" % counted(number, "forced switch")


HANGS = {"waits": ["no thread goes on, in whatever order"],
         "repeats": ["the threads go round: the state comes again, and a long run from there came to no end"]}

# ---------------------------------------------------------------- nothing found


def bound_done(result):
    return result.bounds[-1] if result.bounds else None


def why_it_ended(result):
    return "it was stopped" if result.how == "stopped" else "the limit of %s was met" % result.how


def covered(finding):
    """What was covered without a failure, and never more; and what to try if that isn't all."""
    result, clock = finding.search, clock_text(finding.tick)
    if isinstance(result, Drawn):
        yield from what_was_tried(result, "fails")
    else:
        yield from covered_alone(result, clock)
        yield from advice(result)
    if finding.tick is not None and finding.status != CLEAR:
        yield "the clock went on by %d each time that it was read (--tick)" % finding.tick


def clock_text(tick):
    """What a verdict rests on if the program reads a clock."""
    return "" if tick is None else ", if the clock goes on by %d each time that it is read (--tick)" % tick


def covered_alone(result, clock):
    if result.limited:
        yield "no failure in %s, but what comes after that isn't covered" % counted(result.tries, "run")
        yield "%s came to the limit of steps (--steps)" % counted(result.limited, "run")
        if result.how not in ("all", "bound"):
            yield "%s with %d forced" % (why_it_ended(result), result.bound)
    elif result.how == "all":
        done = bound_done(result)
        yield "no order fails, with however many switches%s: all states were met, %d in %s" % (
            clock, done.states, counted(result.tries, "run"))
    else:
        yield from up_to_bound(result, clock)


def up_to_bound(result, clock):
    done = bound_done(result)
    if done is None:
        yield "nothing is covered: %s before all orders without a forced switch were tried" % why_it_ended(result)
        return
    bound = "without a forced switch" if done.bound == 0 else "with at most " + counted(done.bound, "forced switch")
    yield "no order %s among %s fails%s, in %s" % (
        bound, counted(done.places, "place"), clock if result.how == "bound" else "", counted(done.tries, "run"))
    if result.how != "bound":
        yield "%s with %d forced: the rest isn't covered" % (why_it_ended(result), result.bound)


# ---------------------------------------------------------------- found


def ends(told):
    """How the threads that failed ended."""
    for number, function, state, code, where in told.threads:
        at = ": " + chain_text(where) if where else ""
        if state == "ended" and code:
            yield "%s ended with %d%s" % (thread_name(number, function), code, at)
        elif state == "fault":
            yield "%s faulted, %s%s" % (thread_name(number, function), CAUSES.get(code, "cause %d" % code), at)


def sections(finding, told):
    """The parts of what is told, each with its heading."""
    failures = told.broken + list(ends(told)) + HANGS.get(finding.run.leaf, [])
    yield "what failed", failures + ["console: " + line for line in told.console.splitlines()]
    yield "who waits", told.waits
    yield "why", told.why
    yield "the order", told.story


def time_text(outcome):
    """All the time that it has taken, and how much of that was the search."""
    return "%.1f s (%.2f s of search)" % (outcome.seconds, outcome.finding.seconds)


def found_text(outcome):
    finding, told = outcome.finding, outcome.told
    run = finding.run
    yield "%s fails with %s, found in %s, %s" % (
        outcome.program, counted(run.forced, "forced switch") if run.forced else "no forced switch",
        counted(finding.search.tries, "run"), time_text(outcome))
    for heading, texts in sections(finding, told):
        if texts:
            yield ""
            yield heading + ":"
            yield from ("  " + text for text in texts)
    yield ""
    yield "written to %s: %s (%s, %s; walked), %s, %s" % (
        told.folder, LOG, counted(run.commits, "commit"), counted(run.switches, "switch"), PICTURE, PLAN)
    yield "to replay it: cd %s && %s run %s" % (shlex.quote(str(told.folder)), command_in(told.folder), PLAN)
    yield from ("  " + line for line in shown_by_replay(run, told))


def shown_by_replay(run, told):
    """What a replay prints if all is as it was, and a command that shows how the threads ended in it."""
    yield "which prints `s 0 complete %d`, since all commits are as in the log; then" % run.commits
    states = ", ".join("`%d %s`" % (number, state if code is None else "%s:%d" % (state, code)) for number, _, state, code, _ in told.threads)
    yield "grep ^t %s | cut -d' ' -f2,4 shows how the threads ended: %s" % (REPLAYED[0], states)


def as_text(outcome):
    if outcome.told:
        return list(found_text(outcome))
    first, *more = covered(outcome.finding)
    return ["%s: %s, %s" % (outcome.program, first, time_text(outcome)), *more, *kept_lines(outcome)]


def kept_lines(outcome):
    return ["%s stays as it is: an earlier search has found that" % outcome.kept] if outcome.kept else []


# ---------------------------------------------------------------- JSON


def json_of_search(result):
    if isinstance(result, Drawn):
        return {"how": result.how, "strategy": result.strategy, "depth": result.depth, "runs": result.tries, "actors": result.actors,
                "places": result.points, "left at the limit of steps": result.limited}
    done = bound_done(result)
    return {"how": result.how, "runs": result.tries, "states": done.states if done else 0, "places": done.places if done else 0,
            "all orders up to": done.bound if done else None, "left at the limit of steps": result.limited}


def json_of_run(finding, told):
    run = finding.run
    return {"forced": run.forced, "switches": run.switches, "commits": run.commits, "hangs": run.leaf in ("waits", "repeats"),
            "threads": [dict(zip(("thread", "function", "state", "code", "places"), state)) for state in told.threads],
            "broken": told.broken, "console": told.console, "waits": told.waits, "why": told.why, "order": told.story,
            "folder": str(told.folder), "log": LOG, "picture": PICTURE, "plan": PLAN}


def as_json(outcome):
    """The object of --json, which found.json has too."""
    finding = outcome.finding
    out = {"program": str(outcome.program), "memory": outcome.ready.memory, "conditions": finding.condition, "status": finding.status,
           "seconds": round(finding.seconds, 2), "seconds in all": round(outcome.seconds, 2), "tick of the clock": finding.tick,
           "search": json_of_search(finding.search)}
    if outcome.told:
        out["found"] = json_of_run(finding, outcome.told)
    else:
        out["covered"] = list(covered(finding))
    return {**out, "kept": str(outcome.kept)} if outcome.kept else out
