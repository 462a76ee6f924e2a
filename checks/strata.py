"""Strata, as docs/formats.md has them: `read_strata(bytes)` gives how many strata and commits they are, or raises Malformed with
the number and offset of the first field that isn't good."""

from lib.logs import MOST_COMMITS, Fields, Malformed, read_records

MAGIC = 0x53524C44
CHUNKS, SERIAL, DMA = range(3)


def read_strata(data):
    f = Fields(data)
    f.one_of(4, (MAGIC,), 2)
    f.one_of(1, (1,), 3)
    counted = f.number(1, 63, 1)
    f.one_of(2, [threads for threads in (15, 63) if threads >= counted])
    s = f.number(4, 65536, 16)
    strata, commits = f.number(4), 0
    for _ in range(strata):
        commits += commits_of_next(f, counted, MOST_COMMITS - commits)

    def moment():
        return f.number(1, counted - 1), f.number(4)

    f.rising(lambda: (moment(), f.number(4, s, 1)))
    read_records(f, moment)
    return strata, commits


def commits_of_next(f, counted, most):
    """How many commits the next stratum has."""
    start = f.at
    kind = f.number(1, DMA)
    if kind == SERIAL:
        f.number(1, counted - 1)
    commits = sum(f.take(counted)) if kind == CHUNKS else 1
    if not 1 <= commits <= most:
        raise Malformed(5, start)
    return commits
