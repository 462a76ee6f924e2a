"""What is told of a run that fails, from its log: `explained(program, finding, folder)`."""

from collections import namedtuple
from pathlib import Path
import tempfile

from .chains import places
from .found import LOG, PICTURE, PLAN, plan_text
from .grounds import grounds, signals
from .naming import block_name
from .notes import notes_of
from .story import PAST, Story, thread_name
from .storylines import lines
from .switches import Crossing, Printing
from .trace import open_trace
from .waiting import waiting_lines
from .why import found_lines, found_switches, is_of, told_steps

# broken: lines on stores to freed blocks and past ends. why, waits, story: lines. threads: (number, function, state, code, places where it failed) of
# each. console: text. files: name -> text or bytes.
Told = namedtuple("Told", "broken why waits story threads console files folder")


MOST_USES = 8  # of blocks that had been freed, or past their ends, that are told


def told_switches(trace, story):
    """What why.found_switches finds of the program's own code."""
    return [(its, found) for its, found in found_switches(trace, True) if is_of(story.own, found)]


def why_told(trace, story, told, is_hang):
    """(lines, steps): blocks that were used after they were freed, and loads that were stale, or what else came of forced switches. If
    nothing of that is so, what the failure rests on; and in any case who has signalled, of those that wait."""
    uses, more_uses = list(story.misuses.values())[:MOST_USES], len(story.misuses) - MOST_USES
    lines = [*map(story.use_line, uses), *(["%d more uses of blocks like these" % more_uses] if more_uses > 0 else []), *found_lines(trace, told)]
    steps = {step for use in uses for step in (use.step, use.block.freed and use.block.freed.last)} | told_steps(told)
    is_known = uses or any(not isinstance(it, (Crossing, Printing)) for _, it in told)
    waiting = [note for note in notes_of(trace) if note.waits] if is_hang else []
    more = signals(trace, story, waiting) if is_known else grounds(trace, story, waiting, not lines)
    return lines + [ground.text for ground in more], steps.union(*(ground.steps for ground in more))


def broken_lines(story):
    """Of each block that was stored to after it was freed, or past its end, the first such store, at its line: that is where it went wrong,
    and not where the heap was looked at."""
    first = {}
    for use in story.misuses.values():
        if use.what in ("stores to", PAST):
            first.setdefault((use.block.addr, use.block.freed and use.block.freed.first), use)
    return [broken_line(story, use) for use in first.values()]


def broken_line(story, use):
    """For example `thread 2 (put) stored to the freed block of list.c:30: put, list.c:12; freed by thread 1 (drop): drop, list.c:20`."""
    def name(who):
        return thread_name(who.thread, story.function_of(who.thread))

    freed = use.block.freed
    what = "to the freed" if freed else "past the end of the"
    head = "%s stored %s %s: %s" % (name(use.who), what, block_name(story.names, use.block), story.place_of(use.pc))
    return head + ("; freed by %s: %s" % (name(freed.who), story.place_of(freed.at)) if freed else "")


def hang_told(trace, run):
    """Who waits for whom, of a run in which no thread goes on."""
    return waiting_lines(trace, True) if is_hang(run) else []


def is_hang(run):
    return run.leaf in ("waits", "repeats")


def states(trace, story):
    """(number, function, state, code, places) of each thread; code is None if it is live."""
    for number, thread in enumerate(trace.machine.threads):
        state, code = thread.status
        where = places(trace, story.own, number) if state == "fault" or code else []
        yield number, story.function_of(number), state, None if state == "live" else code, where


def console_of(trace):
    parts = [c.served.output[1] for c in trace.commits if c.served and c.served.output and c.served.output[0] == 8]
    return b"".join(parts).decode("utf-8", "replace")


def picture_of(trace, title):
    from view.findings import findings
    from view.page import page
    from view.picture import Picture

    return page(Picture(trace, [], findings(trace)), title)


def explained(program, finding, folder):
    """The Told of a Finding. The log is walked once more by the proved program, and each line is checked with its account."""
    with tempfile.NamedTemporaryFile(prefix="found-", suffix=".log") as file:
        file.write(finding.run.log)
        file.flush()
        trace = open_trace(program.image, program.memory, file.name)
    story, image = Story(trace, finding.run.left), Path(program.image).name
    files = {LOG: finding.run.log, PICTURE: picture_of(trace, image), PLAN: plan_text(image, program.memory, folder)}
    why, steps = why_told(trace, story, told_switches(trace, story), is_hang(finding.run))
    return Told(broken_lines(story), why, hang_told(trace, finding.run), list(lines(story, steps)), list(states(trace, story)), console_of(trace), files, folder)
