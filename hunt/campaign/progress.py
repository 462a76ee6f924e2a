"""How far a campaign is, in one line on a terminal, once a second: `Progress(total)`."""

import sys
import time

from .trying import BAD, HUNG, LIVE, OUTCOMES


class Progress:
    def __init__(self, total):
        self.total, self.done, self.counts = total, 0, [0] * len(OUTCOMES)
        self.started = self.shown = time.monotonic()
        self.is_shown = sys.stderr.isatty()

    def count(self, outcome):
        self.done += 1
        self.counts[outcome] += 1

    def rate(self):
        """Tries a second so far."""
        return self.done / max(time.monotonic() - self.started, 1e-9)

    def line(self):
        words = ["%s of %s tries" % (format(self.done, ","), format(self.total, ","))]
        words.append("%s a second" % format(round(self.rate()), ","))
        words += ["%s %s" % (format(self.counts[outcome], ","), OUTCOMES[outcome])
                  for outcome in (BAD, HUNG, LIVE) if self.counts[outcome]]
        if self.done:
            words.append("%s to go" % span((self.total - self.done) / self.rate()))
        return ", ".join(words)

    def show(self):
        if self.is_shown and time.monotonic() - self.shown >= 1:
            self.shown = time.monotonic()
            print("\r\033[K" + self.line(), end="", file=sys.stderr, flush=True)

    def clear(self):
        """Takes the line away, before others are printed."""
        if self.is_shown:
            print("\r\033[K", end="", file=sys.stderr, flush=True)


def span(seconds):
    """A time in words, as `40 s`, `5 min` or `3.2 h`."""
    if seconds < 100:
        return "%d s" % seconds
    return "%d min" % (seconds / 60) if seconds < 6000 else "%.1f h" % (seconds / 3600)
