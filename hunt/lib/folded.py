"""Which rows of a Story are told: `folded(turns, steps)`. A short one is told whole. Of a longer one what the threads do with what is
theirs alone is left out, and of a long one all but what is done next to a switch, and what a failure rests on."""

from .story import KEY, SHARED

MOST_ROWS = 44    # of a story that is told whole
BESIDE = 2        # rows next to a switch that are told in any case
MOST_TURNS = 24   # of a story; of more, those in the middle are left out, except those that a failure rests on
LAST_TURNS = 12


def folded(turns, steps=frozenset()):
    """A list of (turn, its rows, with how many in place of those that are left out); in place of turns that are left out, of (None, how
    many they are)."""
    for keep in (lambda *_: True, _is_shared, _is_beside):
        kept = [[row for j, row in enumerate(turn.rows) if keep(turn.rows, j) or is_pinned(row, steps)] for turn in turns]
        if sum(map(len, kept)) <= MOST_ROWS:
            break
    shown = [(turn, _with_gaps(turn.rows, rows)) for turn, rows in zip(turns, kept)]
    return shown if len(turns) <= MOST_TURNS else list(_without_middle(shown, steps))


def is_pinned(row, steps):
    """Whether a row is told however long the story is."""
    return row.rank == KEY or row.step in steps


def _is_shared(rows, j):
    return rows[j].rank <= SHARED


def _is_beside(rows, j):
    shared = [i for i, row in enumerate(rows) if row.rank <= SHARED] or list(range(len(rows)))
    return j in shared[:BESIDE] or j in shared[-BESIDE:]


def _with_gaps(rows, kept):
    """The kept ones, with a number in place of each run of others."""
    out, wanted = [], {id(row) for row in kept}
    for row in rows:
        if id(row) in wanted:
            out.append(row)
        elif out and isinstance(out[-1], int):
            out[-1] += 1
        else:
            out.append(1)
    return out


def _without_middle(shown, steps):
    first, last, gap = MOST_TURNS - LAST_TURNS, len(shown) - LAST_TURNS, 0
    for j, (turn, rows) in enumerate(shown):
        if first <= j < last and not turn.is_left and not any(row.step in steps for row in turn.rows):
            gap += 1
            continue
        if gap:
            yield None, gap
        gap = 0
        yield turn, rows
