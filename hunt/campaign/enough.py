"""How many events are enough, as the runs so far tell: `Enough().first(setting, events)` is with how many a try may begin.

A plan often has far more events than its program needs. Once all threads have ended, more of them do nothing, so a run that has
come to its end with a few is the run that all would be."""

LOOKS = 8  # runs of a setting, of which it is looked when their last commit came
TIMES = 2  # as many events as that


class Enough:
    def __init__(self):
        self.lasts = {}  # of each setting: how many runs were looked at, and the events up to the last commit of any of them

    def first(self, number, events):
        """With how many events a try of this setting may begin, or None if that isn't known, or saves little."""
        looks, last = self.lasts.get(number, (0, 0))
        return TIMES * last if events is not None and looks >= LOOKS and 0 < 2 * TIMES * last <= events else None

    def wants(self, number, events):
        """Whether a run with all events should be looked at: until enough were, and if fewer events weren't enough for it."""
        return self.lasts.get(number, (0, 0))[0] < LOOKS or self.first(number, events) is not None

    def look(self, number, report, sphere):
        """Takes in a run whose threads have all ended."""
        looks, last = self.lasts.get(number, (0, 0))
        self.lasts[number] = looks + 1, max(last, last_commit(report, sphere) or 0)


def last_commit(report, sphere):
    """After how many events the last commit of this sphere came, by the report's bytes; None if there was none."""
    mark = b" %d " % sphere
    for line in reversed(report.split(b"\n")):
        if line.startswith(b"g ") and line[line.index(b" ", 2) :].startswith(mark):
            return int(line.split(b" ", 2)[1])
    return None
