"""Makes a run's turns fewer while it still ends badly: `Shrinker(engine).shrunk(turns)`.

The turns of a log, taken exactly, are where it begins, so what ends badly is never lost. From there on each try is a list of
turns that may lead anywhere: it counts only if its run ends badly too. Most are taken freely, so that a thread that waits is
passed over; where that leads elsewhere, exactly.
"""

import time

from .engine import AGAIN, DMA, EXACTLY, FREELY, RAISE, WHOLE, Turn
from .logs import DMA as DMA_COMMIT


def turns_of(log, commits):
    """A turn for each commit of a log, given as (actor, size) by its walk's account, and for each interrupt."""
    done, turns = {}, []
    for actor, size in commits:
        if actor == DMA_COMMIT:
            turns.append(Turn(DMA, 0, 0, "stopped"))
            continue
        turns.append(Turn(actor, size or 1, 0, "forced"))
        done[actor] = done.get(actor, 0) + 1
        value = log.interrupts.get((actor, done[actor]))
        if value is not None:
            turns.append(Turn(RAISE, actor, value, "stopped"))
    return turns


def is_thread(turn):
    return turn.actor < DMA


def measure(turns):
    """What is to be small, the first number first: forced switches, interrupts and DMAs; switches; turns; steps."""
    pairs = list(zip(turns, turns[1:]))
    forced = sum(turn.end == "forced" and turn.actor != after.actor for turn, after in pairs)
    others = sum(not is_thread(turn) for turn in turns)
    switches = sum(turn.actor != after.actor for turn, after in pairs)
    return forced + others, switches, len(turns), sum(turn.steps for turn in turns if is_thread(turn))


def joined(turns):
    """Turns of one thread that follow one another, made one."""
    out = []
    for turn in turns:
        if out and is_thread(turn) and out[-1].actor == turn.actor:
            out[-1] = out[-1]._replace(steps=min(WHOLE, out[-1].steps + turn.steps), end=turn.end)
        else:
            out.append(turn)
    return out


def as_led(turns, manner):
    """The turns as they are handed to the engine: what ended in waiting does so again, however many steps that takes."""
    if manner == FREELY:
        return turns
    return [turn._replace(steps=WHOLE) if is_thread(turn) and turn.end in ("waits", "stopped") else turn for turn in turns]


def moved(turns, place, other):
    """The turn's steps given to another turn of its thread."""
    steps = min(WHOLE, turns[place].steps + turns[other].steps)
    out = turns[:other] + [turns[other]._replace(steps=steps)] + turns[other + 1 :]
    return out[:place] + out[place + 1 :]


def neighbours(turns, place):
    """The places of the next turn and the last one of the same thread."""
    actor = turns[place].actor
    yield from (j for j in range(place + 1, len(turns)) if turns[j].actor == actor and is_thread(turns[j]))
    yield from (j for j in range(place - 1, -1, -1) if turns[j].actor == actor and is_thread(turns[j]))


class Shrinker:
    """until: where the runs end. deadline: of time.monotonic. tries: how many runs there were. least: the turns of the least run
    so far that ends badly."""

    def __init__(self, engine, until, deadline):
        self.engine, self.until, self.deadline, self.tries, self.least = engine, until, deadline, 0, None

    def is_late(self):
        return time.monotonic() > self.deadline

    def shrunk(self, turns):
        """The turns of the least run that was found, or None if these turns, taken exactly, don't end badly."""
        exact = self.tried(turns, EXACTLY)
        if exact is None:
            return None
        useful = [turn for turn in self.engine.without_idle_steps(turns) if not is_thread(turn) or turn.steps]
        useful_exact = self.tried(useful, EXACTLY) or exact
        for start, manners in ((self.tried(useful, FREELY), [FREELY]), (self.tried(turns, FREELY), [FREELY]),
                               (useful_exact, [FREELY, EXACTLY])):
            if start:
                Descent(self, start, manners).descend()
        return self.least

    def tried(self, turns, manner):
        """The turns that a run takes if these lead it, or None if it doesn't end badly."""
        self.tries += 1
        outcome, taken = self.engine.guided(as_led(turns, manner), manner, self.until)
        if outcome != "bad":
            return None
        taken = [turn for turn in taken if not is_thread(turn) or turn.steps]
        if self.least is None or measure(taken) < measure(self.least):
            self.least = taken
        return taken

    def told(self, taken):
        """The engine's Told of a run that ends badly and took these turns, which it does again step by step."""
        return self.engine.told(taken, AGAIN, self.until)[1]


class Descent:
    """From a run to a lesser one, as long as a move leads to one. manners: those in which turns are tried, in this order."""

    def __init__(self, shrinker, turns, manners):
        self.shrinker, self.turns, self.manners = shrinker, turns, manners

    def descend(self):
        before = None
        while measure(self.turns) != before and not self.shrinker.is_late():
            before = measure(self.turns)
            self.accept(joined(self.turns))
            self.drop_runs_of_turns()
            self.lengthen_turns()
            self.move_turns()
            self.accept(joined(self.turns))

    def accept(self, turns):
        """Goes on with the turns if they lead to a bad end too, and are less."""
        for manner in self.manners:
            taken = None if self.shrinker.is_late() else self.shrinker.tried(turns, manner)
            if taken and measure(taken) < measure(self.turns):
                self.turns = taken
                return True
        return False

    def drop_runs_of_turns(self):
        """First half of them at once, then a quarter, down to single ones: delta debugging."""
        size = max(1, len(self.turns) // 2)
        while True:
            at = 0
            while at < len(self.turns) and not self.shrinker.is_late():
                rest = self.turns[:at] + self.turns[at + size :]
                if not (self.accept(rest) or self.accept(joined(rest))):
                    at += size if size > 4 else 1
            if size == 1 or self.shrinker.is_late():
                return
            size //= 2

    def lengthen_turns(self):
        """A thread goes on until it ends or waits, so the switch after it isn't forced."""
        for place in range(len(self.turns)):
            if self.shrinker.is_late():
                return
            if place < len(self.turns) and is_thread(self.turns[place]) and self.turns[place].end == "forced":
                longer = self.turns[place]._replace(steps=WHOLE)
                self.accept(self.turns[:place] + [longer] + self.turns[place + 1 :])

    def move_turns(self):
        """A thread does what it does in one turn in its next one, or in the one before."""
        place = 0
        while place < len(self.turns) and not self.shrinker.is_late():
            near = [j for j in neighbours(self.turns, place)] if is_thread(self.turns[place]) else []
            if not any(self.accept(joined(moved(self.turns, place, j))) for j in near[:2]):
                place += 1
