"""Schedules of more than 16 threads: drawn events place no thread above 15, so a script says each event itself. In each turn a core, drawn
at random, does some steps of a chunk and commits them. Now and then it takes another thread before."""

import random

TURNS_OF_A_THREAD = 4  # on a core, in the mean
DRAINS = 6             # words of a commit that go to memory at once; the rest goes in the next turn


def _turn(draw, cores, threads, chunk):
    core, steps = draw.randrange(cores), draw.randint(1, chunk)
    if draw.randrange(TURNS_OF_A_THREAD) == 0:
        yield "place %d 0 %d" % (core, draw.randrange(threads))
    yield from ["step %d" % core] * steps
    if steps < chunk:
        yield "cut %d" % core
    yield "ask %d" % core
    yield from ["drain 0"] * DRAINS
    yield from ("deliver %d 0" % other for other in range(cores) if other != core)
    yield "retire 0"


def schedule(events, cores, threads, chunk, seed):
    """The text of a script of so many events, which places all threads alike. The plan's window has one slot."""
    draw, lines = random.Random(seed), []
    while len(lines) < events:
        lines += _turn(draw, cores, threads, chunk)
    return "\n".join(lines[:events]) + "\n"
