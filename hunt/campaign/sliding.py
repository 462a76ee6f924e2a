"""Moves the forced switches of a shrunk run to where they are earliest: `slid(engine, told, until, deadline)`.

A race leaves a gap of some instructions, and a switch anywhere in it does. So two finds of one race may be shrunk to switches at
different places of the gap, and its first place shows that they are the same."""

import time

from lib.engine import FREELY, WHOLE
from lib.shrinking import is_thread, measure, neighbours

PASSES = 3


def slid(engine, told, until, deadline):
    """The Told of a run that ends badly as this one does, with no more forced switches, each as early as it can be."""
    slider = Slider(engine, until, deadline)
    best = free(told.turns)
    if not slider.is_as_good(best, told.turns):
        return told
    for _ in range(PASSES):
        before = best
        for place in forced(best):
            best = slider.earliest(best, place)
        if best == before:
            break
    return engine.told(best, FREELY, until)[1]


def free(turns):
    """Turns that end by themselves may go on for as long as they do."""
    return [turn._replace(steps=WHOLE) if is_thread(turn) and turn.end != "forced" else turn for turn in turns]


def forced(turns):
    return [place for place, turn in enumerate(turns) if is_thread(turn) and turn.end == "forced"]


class Slider:
    def __init__(self, engine, until, deadline):
        self.engine, self.until, self.deadline = engine, until, deadline

    def earliest(self, turns, place):
        """The turns with the one at this place shorter, step by step, for as long as they end badly. Before the gap there may be
        another one, of another bug, and that isn't looked for. What the turn doesn't do, its thread does in its next one."""
        later = next((other for other in neighbours(turns, place) if other > place), None)
        while later is not None and turns[place].steps > 1 and time.monotonic() < self.deadline:
            tried = list(turns)
            tried[place] = turns[place]._replace(steps=turns[place].steps - 1)
            tried[later] = turns[later]._replace(steps=min(WHOLE, turns[later].steps + 1))
            if not self.is_as_good(tried, turns):
                return turns
            turns = tried
        return turns

    def is_as_good(self, tried, turns):
        outcome, came = self.engine.guided(tried, FREELY, self.until)
        return outcome == "bad" and measure(came)[0] <= measure(turns)[0]
