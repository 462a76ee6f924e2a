"""A Story as lines of text: `lines(story)`."""

from .folded import folded
from .trace import context_name

WIDEST = 36     # a word that is longer isn't in columns with the others
LONGEST = 60    # of it so much is shown


def row_lines(rows):
    """Rows as lines, in columns."""
    what = max((len(row.what) for row in rows), default=0)
    word = max((len(row.word) for row in rows if len(row.word) <= WIDEST), default=0)
    value = max((len(row.value) for row in rows), default=0)
    for row in rows:
        times = ("  (%d times)" % row.times if row.times > 1 else "") + ("  " + row.note if row.note else "")
        if len(row.word) > WIDEST:
            shown = row.word if len(row.word) <= LONGEST else row.word[: LONGEST - 3] + "..."
            yield "  ".join(filter(None, ("%-*s" % (what, row.what), shown, row.value, row.place + times)))
        else:
            yield ("%-*s  %-*s  %-*s  %s%s" % (what, row.what, word, row.word, value, row.value, row.place, times)).rstrip()


def head(turn):
    return context_name(turn.who) + (" (%s)" % turn.function if turn.function else "")


def lines(story, steps=frozenset()):
    """The story as lines: of each turn who it is, and below it its rows. Those of these steps aren't left out."""
    shown = folded(story.turns, steps)
    texts = row_lines([row for turn, rows in shown if turn for row in rows if not isinstance(row, int)])
    for turn, rows in shown:
        if turn is None:
            yield ".. %d more turn%s" % (rows, "" if rows == 1 else "s")
            continue
        yield head(turn)
        for row in rows:
            yield "    .. %d more" % row if isinstance(row, int) else "    " + next(texts)
        if turn.is_left:
            yield "    -- forced switch: it could have gone on"
