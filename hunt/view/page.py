"""A Picture as one page of HTML that needs nothing else: `page(picture, title)`."""

from array import array
import base64
import html
import json
from pathlib import Path
import sys

from lib.logs import MODE_NAMES

from .picture import ENTRIES, KINDS
from .shown import shown


def page(picture, title):
    template = (Path(__file__).parent / "page.html").read_text(encoding="utf-8")
    before, rest = template.split("@TITLE@")
    middle, after = rest.split("@RUN@")
    return "".join((before, html.escape(shown(title)), middle, _json(_model(picture)), after))


def _json(model):
    """JSON that ends no script: no <, >, & or line separator in it is written as itself."""
    text = json.dumps(model, separators=(",", ":"))  # ASCII alone
    return text.replace("<", "\\u003c").replace(">", "\\u003e").replace("&", "\\u0026")


def _model(p):
    notes, spans, rans = _Interned([""]), _Interned(), _Interned()
    ran = [rans.number(tuple(map(spans.number, texts))) for texts in p.ran]
    packed = array("B", (entry | at << 4 | width - 1 << 6 for entry, at, width in zip(p.entry, p.at, p.width)))
    return {
        "about": about(p), "base": p.trace.base, "lanes": p.lanes, "kinds": KINDS, "entries": ENTRIES,
        "lane": _column("B", p.lane), "kind": _column("B", p.kind), "size": _column("I", p.size),
        "note": _column("I", map(notes.number, p.note)), "ran": _column("I", ran), "first": _column("I", p.first),
        "word": _column("I", p.word), "value": _column("I", p.value), "entry": _column("B", packed), "place": _column("I", p.place),
        "words": p.words, "chosen": p.chosen, "places": p.places, "notes": notes.values, "lines": spans.values, "rans": rans.values,
        "found": [{"kind": f.kind, "accesses": f.accesses, "text": f.text} for f in p.found], "partial": p.is_partial,
    }


def about(p):
    trace = p.trace
    end = "complete" if trace.end[0] == "complete" else "diverged at commit %d, for reason %d" % trace.end[1:3]
    first = "from commit %d on, " % trace.base if trace.base else ""
    return first + "%d commits, %d instructions, %s, %s" % (len(trace.commits), trace.steps, MODE_NAMES[trace.log.mode], end)


def _column(code, values):
    data = array(code, values)
    if sys.byteorder == "big":
        data.byteswap()
    return base64.b64encode(data.tobytes()).decode("ascii")


class _Interned:
    """Values by number, each once."""

    def __init__(self, values=()):
        self.values = list(values)
        self.numbers = {value: n for n, value in enumerate(self.values)}

    def number(self, value):
        if value not in self.numbers:
            self.numbers[value] = len(self.values)
            self.values.append(value)
        return self.numbers[value]
