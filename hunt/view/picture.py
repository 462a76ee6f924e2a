"""What a picture of a trace has in it: `Picture(trace, words, findings)`. page.py puts it into a page, text.py into rows.

A lane is a thread, the interrupts of a thread, or DMA. A box is a commit. An entry is an access to memory, to a device's
word or by the kernel; an atomic instruction that loads and stores has two entries, its load first.
"""

from array import array

from lib import isa
from lib.machine import NO_PC
from lib.play import CHUNK, TRANSFER
from lib.telling import lane_name, what_served

from .findings import Finding
from .shown import shown, shown_bytes

# Kinds of boxes.
KINDS = ("chunk", "step of the kernel", "DMA", "fault")
# What an entry is, by its number: the letter of its line, and in words. A store is `s`, a load `l`, an SC that failed `f`.
ENTRIES = (("l", "load"), ("s", "store"), ("l", "lr"), ("s", "sc"), ("f", "sc failed"), ("l", "amo"), ("s", "amo"), ("l", "swap"),
           ("s", "swap"), ("s", "kernel store"), ("s", "DMA"), ("l", "kernel load"), ("l", "device"), ("s", "device"))
_NUMBERS = {isa.LOAD: (0,), isa.STORE: (1,), isa.LR: (2,), isa.SC: (3,), isa.SC_FAILED: (4,), isa.AMO: (5, 6), isa.SWAP: (7, 8),
            isa.COPY: (9,), isa.DMA: (10,), isa.OUT: (11,), isa.DEVICE: (12,), isa.CONSOLE: (13,)}
DEVICES = {isa.MOMENT: "moment", isa.INPUT_BYTE: "input byte", isa.CONSOLE_WORD: "console byte"}

MOST_ENTRIES = 600_000  # of a page; above that it has those of the words that are shared most
MOST_WORDS = 6  # that are marked where none are asked for


def lane_of(commit):
    return commit.actor, commit.handler > 0


def kind_of(commit):
    if commit.kind == CHUNK:
        return 0
    if commit.kind == TRANSFER:
        return 2
    return 3 if commit.served.name in ("fault", "break") else 1


def note_of(commit):
    """What a commit's box says, beside its size."""
    served, parts = commit.served, []
    if served is not None:
        out = shown_bytes(served.output[1]) if served.output and served.output[1] else ""
        parts.append(" ".join(filter(None, (what_served(commit), out))))
    if commit.raised is not None:
        parts.append("then interrupt %08X" % commit.raised)
    return ", ".join(parts)


class Picture:
    """Of each commit: lanes[lane[i]], kind, size, note and ran (its lines) as text, and its entries: first[i] to below
    first[i + 1]. Of each entry: word (an index of words), value, entry (an index of ENTRIES), at (the byte in the word), width,
    place (an index of places). chosen: the words that are marked. found: Findings whose accesses are entries."""

    def __init__(self, trace, chosen=(), findings=(), most=MOST_ENTRIES):
        self.trace, commits = trace, trace.commits
        lanes = sorted({lane_of(c) for c in commits})  # a thread, and whether in an interrupt
        self.lanes = [lane_name(lane) for lane in lanes]
        numbers = {lane: n for n, lane in enumerate(lanes)}
        self.lane = [numbers[lane_of(c)] for c in commits]
        self.kind = [kind_of(c) for c in commits]
        self.size = [c.size for c in commits]
        self.note = [note_of(c) for c in commits]
        self._lines, self._ran = {}, {}
        self.ran = [self._lines_of(c) for c in commits]
        shared = self._shared()
        self.chosen_addrs = list(chosen) or self._choose(shared, findings)
        self.is_partial = len(trace.accesses) > most
        self._fill(self._kept(shared, findings, most) if self.is_partial else None)
        self.found = [self._finding(f) for f in findings]

    # ------------------------------------------------------------ words

    def _shared(self):
        """The words of memory that more than one lane accesses, and one stores to: (loads that found another lane's store,
        address), the most first."""
        trace, out = self.trace, []
        commit_lane = dict(zip((c.number for c in trace.commits), self.lane))
        for addr, indices in trace.words.items():
            if addr >= trace.image.size or len(indices) < 2:
                continue
            last, crossings, lanes, stored = None, 0, set(), False
            for a in map(trace.accesses.__getitem__, indices):
                lane = commit_lane[trace.commit_of(a.step).number]
                lanes.add(lane)
                if a.kind in isa.LOADS and last is not None and last != lane:
                    crossings += 1
                if a.kind in isa.STORES:
                    last, stored = lane, True
            if stored and len(lanes) > 1:
                out.append((-crossings, addr))
        return sorted(out)

    def _choose(self, shared, findings):
        """Words to mark where none are asked for: those of findings, then those that went most often from one to another, by
        their addresses. One that did so once, as an argument does, is marked only where there is no other."""
        found = self._of_findings(findings)
        often, once = ([addr for crossings, addr in shared if test(-crossings)] for test in (lambda n: n > 1, lambda n: n == 1))
        best = found + [addr for addr in often if addr not in found] or once
        return sorted(best[:MOST_WORDS])

    def _of_findings(self, findings):
        return list(dict.fromkeys(self.trace.accesses[f.accesses[0]].addr & ~3 for f in findings))

    def _kept(self, shared, findings, most):
        """Words whose accesses a page has when it can't have all: the chosen ones, those of findings, and of the others as many as
        there is room for."""
        words, kept = self.trace.words, list(dict.fromkeys(self.chosen_addrs + self._of_findings(findings)))
        total = sum(len(words.get(addr, ())) for addr in kept)
        for _, addr in shared:
            total += len(words[addr])
            if total > most:
                break
            kept.append(addr)
        return frozenset(kept)

    # ------------------------------------------------------------ entries

    def _fill(self, kept):
        trace, names = self.trace, self.trace.names
        self.word, self.value, self.place = array("I"), array("I"), array("I")
        self.entry, self.at, self.width = array("B"), array("B"), array("B")
        self.first, self.entries_of = array("I", [0]), {}
        numbers, places = {}, {}
        for addr in self.chosen_addrs:
            numbers.setdefault(addr, len(numbers))
        for commit in trace.commits:
            for j in range(commit.first_access, commit.last_access):
                a = trace.accesses[j]
                addr = a.addr & ~3
                if kept is not None and addr not in kept:
                    continue
                word = numbers.setdefault(addr, len(numbers))
                place = places.setdefault(a.pc, len(places))
                self.entries_of[j] = len(self.word)
                for entry in _NUMBERS[a.kind]:
                    self.word.append(word)
                    self.value.append(a.value if len(_NUMBERS[a.kind]) == 1 else a.new if ENTRIES[entry][0] == "s" else a.old)
                    self.entry.append(entry)
                    self.at.append(a.addr & 3)
                    self.width.append(a.width)
                    self.place.append(place)
            self.first.append(len(self.word))
        self.words = [(addr, shown(DEVICES.get(addr) or names.name(addr))) for addr in numbers]
        self.words = [(addr, "" if name == "%08X" % addr else name) for addr, name in self.words]
        self.places = ["" if pc == NO_PC else "%08X %s" % (pc, shown(self._place(pc))) for pc in places]
        self.chosen = [numbers[addr] for addr in self.chosen_addrs]

    def _place(self, pc):
        return ", ".join(filter(None, (self.trace.names.function(pc), self.trace.names.line(pc))))

    def _finding(self, finding):
        """The finding by entries: the loads of its loads, the stores of its stores."""
        out = []
        for n, j in enumerate(finding.accesses):
            is_pair = len(_NUMBERS[self.trace.accesses[j].kind]) == 2
            out.append(self.entries_of[j] + (1 if is_pair and n else 0))
        return Finding(finding.kind, out, shown(finding.text))

    # ------------------------------------------------------------ marks

    def marks(self, commit):
        """The marks of a commit, as (entry, how many entries it is for): the entries of chosen words, but that equal loads in
        a row at one place are one mark."""
        chosen, out = set(self.chosen), []
        for e in range(self.first[commit], self.first[commit + 1]):
            if self.word[e] not in chosen:
                continue
            if out and self._again(out[-1][0], e):
                out[-1][1] += 1
            else:
                out.append([e, 1])
        return out

    def _again(self, before, e):
        return (self.letter(before) == self.letter(e) == "l" and self.word[before] == self.word[e]
                and self.value[before] == self.value[e] and self.place[before] == self.place[e])

    def letter(self, e):
        return ENTRIES[self.entry[e]][0]

    def found_by(self):
        """Of each load the store that it found, or None; of what is no load None."""
        last, out = {}, []
        for e, word in enumerate(self.word):
            out.append(last.get(word) if self.letter(e) == "l" else None)
            if self.letter(e) == "s":
                last[word] = e
        return out

    # ------------------------------------------------------------ lines

    def _lines_of(self, commit):
        """The functions and lines that a commit ran, as a tuple of texts."""
        key = self.trace.pcs[commit.first : commit.last].tobytes()
        if key not in self._ran:
            self._ran[key] = tuple(self._spans(self.trace.pcs[commit.first : commit.last]))
        return self._ran[key]

    def _spans(self, pcs):
        """`work, race.c:23-25` for each function and file, in the order in which it was first run."""
        ran = {}
        for pc in dict.fromkeys(pcs):
            if pc == NO_PC:
                continue
            if pc not in self._lines:
                self._lines[pc] = self._line(pc)
            where, number = self._lines[pc]
            ran.setdefault(where, set()).add(number)
        for (function, file), numbers in ran.items():
            numbers = sorted(numbers)
            spans = ", ".join(_runs(numbers)) if file else "-".join("%08X" % pc for pc in dict.fromkeys((numbers[0], numbers[-1])))
            yield shown(", ".join(filter(None, (function, "%s:%s" % (file, spans) if file else spans))))

    def _line(self, pc):
        names = self.trace.names
        file, _, number = (names.line(pc) or "").rpartition(":")
        return (names.function(pc), file), int(number) if file else pc


def _runs(numbers):
    """Numbers that rise, as `3-5` and `8`."""
    first = last = numbers[0]
    for n in numbers[1:] + [None]:
        if n == last + 1:
            last = n
            continue
        yield str(first) if first == last else "%d-%d" % (first, last)
        first = last = n
