"""One sitting of a search: by how many threads, where it is saved, what it goes on from, and what is said on its way."""

import os
import sys

from . import saving
from .manners import NoOutput, try_output
from .searching import Refused, counted

MOST_JOBS, EVERY = 64, 60


def seconds_between_saves():
    """A minute, except in tests."""
    return float(os.environ.get("DELOREAN_SAVE_EVERY", EVERY))


class Progress:
    """One line on a terminal, that the next one takes the place of."""

    def __init__(self, stream):
        self.stream, self.shown = stream, 0

    def show(self, text):
        self.stream.write("\r" + text.ljust(self.shown))
        self.stream.flush()
        self.shown = len(text)

    def clear(self):
        if self.shown:
            self.show("")
            self.stream.write("\r")
            self.stream.flush()
            self.shown = 0


def progress_text(words):
    """Of an engine's line `progress`: how it is, and no guess how long it takes."""
    bound, tries, states, places = (int(words[j]) for j in (1, 3, 5, 7))
    forced = "without a forced switch" if bound == 0 else "with %d forced" % bound
    return "%s: %s, %s, %s so far, %.0f s; %d of this bound's %s not begun" % (
        forced, counted(tries, "run"), counted(states, "state"), counted(places, "place"), float(words[11]), int(words[13]),
        counted(int(words[15]), "way"))


class Sitting:
    def __init__(self, job, given, switches):
        self.given, self.switches, self.is_saved = given, switches, False
        self.progress = Progress(sys.stderr)
        if not 1 <= given.jobs <= MOST_JOBS:
            raise Refused("--jobs is from 1 to %d" % MOST_JOBS)
        if given.save:
            try:
                try_output(given.save)
            except NoOutput as error:
                raise Refused(error.args[0]) from None
        self.stamp = saving.stamp(job.image, job.condition, job.options, switches) if given.save or given.resume else None
        if given.resume:
            saving.check(given.resume, self.stamp)

    def lines(self):
        yield "jobs %d" % self.given.jobs
        if self.stamp:
            yield "stamp " + self.stamp
        if self.given.save:
            yield "save %f %s" % (seconds_between_saves(), self.given.save)
        if self.given.resume:
            yield "resume " + self.given.resume
        if sys.stderr.isatty():
            yield "progress"

    def search(self, engine, tell_bound):
        given = self.given

        def on_bound(bound):
            self.progress.clear()
            tell_bound(bound)
        engine.send(*self.lines())
        try:
            return engine.search(self.switches, given.tries, given.states, given.seconds, on_bound, self.on_line)
        finally:
            self.progress.clear()

    def on_line(self, words):
        if words[0] == "progress":
            self.progress.show(progress_text(words))
            return
        self.progress.clear()
        if words[0] == "saved":
            self.is_saved = True
        elif words[0] == "unsaved":
            print("search: %s isn't saved: %s" % (self.given.save, " ".join(words[1:])), file=sys.stderr, flush=True)
        elif words[0] == "damaged":
            raise saving.NotSaved("%s is damaged: not all is there that was saved" % self.given.resume)
        else:
            print("going on from %s: %s and %s so far" % (self.given.resume, counted(int(words[3]), "run"), counted(int(words[5]), "state")),
                  flush=True)

    def how_to_go_on(self, result):
        if self.is_saved and result.how not in ("all", "bound"):
            yield "to go on: the same command with --resume %s" % self.given.save
