"""What is looked for in a Trace: updates that are lost, words that changed and changed back, and who does what to a word."""

from collections import namedtuple

from . import isa

# A context loads a word; others store to it (each of them, in order); the context stores on top. Each is (Commit, Access).
# is_same: the store on top finds the value that was loaded, because the others stored that value, or it came back.
Lost = namedtuple("Lost", "word load others store is_same")
# A context loads a word; others store to it; the context's SC or exchange finds the loaded value there again. source: where
# the context has loaded what it stores, since the first load; None if it hasn't. now: the word at that place by then.
Aba = namedtuple("Aba", "word load others store source now")
# What a context does to a word at one pc. of: (thread, whether in an interrupt). first, last: commits.
Use = namedtuple("Use", "of kind pc count first last")

_UPDATES = frozenset((isa.SC, isa.SWAP))
_OWN_LOADS = isa.LOADS - {isa.OUT}


class _Seen:
    """What a context has loaded of a word, and what others have stored there since."""

    __slots__ = ("context", "load", "others")

    def __init__(self, context, load):
        self.context, self.load, self.others = context, load, []


def _lane(commit):
    return commit.actor, commit.handler > 0


def shared_words(trace):
    """The words that more than one thread accesses, or a thread and its interrupts, and at least one stores to, rising."""
    out = []
    for word, indices in trace.words.items():
        accesses = [trace.accesses[j] for j in indices]
        if any(a.kind in isa.STORES for a in accesses):
            first = trace.commit_of(accesses[0].step)
            if any(a.step >= first.last and _lane(trace.commit_of(a.step)) != _lane(first) for a in accesses):
                out.append(word)
    return sorted(out)


def bits_of(access):
    """The bytes of the word that it accesses, as a mask of bits."""
    return ((1 << 8 * access.width) - 1) << 8 * (access.addr & 3)


def _passes(trace, word, loads):
    """(seen, store) for each store by a context that has seen the word, by one of these kinds of `loads`, and others have
    stored to it since."""
    seen = {}
    for commit, access in trace.of_word(word):
        lane, context = _lane(commit), trace.context(commit)
        is_store, mine = access.kind in isa.STORES, seen.get(lane)
        if is_store and mine and mine.context == context and mine.others:
            yield mine, (commit, access)
        if is_store:
            seen.pop(lane, None)
            for other, entry in seen.items():
                if other != lane and bits_of(entry.load[1]) & bits_of(access):
                    entry.others.append((commit, access))
        elif access.kind in loads:
            seen[lane] = _Seen(context, (commit, access))


def lost(trace):
    """The lost updates, in the order of the stores on top."""
    out = []
    for word in shared_words(trace):
        for seen, (commit, access) in _passes(trace, word, _OWN_LOADS):
            bits = bits_of(seen.load[1]) & bits_of(access)
            if access.kind == isa.STORE and bits:
                is_same = not (access.old ^ seen.load[1].new) & bits
                out.append(Lost(word, seen.load, seen.others, (commit, access), is_same))
    return sorted(out, key=lambda found: found.store[1].step)


def aba(trace):
    """The SCs and exchanges that find what was loaded before, although others have stored since, in their order."""
    out = []
    for word in shared_words(trace):
        for seen, (commit, access) in _passes(trace, word, frozenset((isa.LOAD,))):
            if access.kind in _UPDATES and access.old == seen.load[1].new:
                source = _source(trace, seen.load, (commit, access))
                now = trace.value_before(source[1].addr, access.step) if source else None
                out.append(Aba(word, seen.load, seen.others, (commit, access), source, now))
    return sorted(out, key=lambda found: found.store[1].step)


def _source(trace, load, store):
    """The last load of the stored value by the context that stores, after its `load`, as (Commit, Access), or None."""
    commit, access = store
    context = trace.context(commit)
    for number in range(commit.number, load[0].number - 1, -1):
        mine = trace.commits[number]
        if trace.context(mine) != context:
            continue
        for a in reversed(trace.accesses_of(mine)):
            if load[1].step < a.step < access.step and a.kind == isa.LOAD and a.width == 4 and a.value == access.new:
                return mine, a
    return None


def uses(trace, word):
    """What each context does to the word, in the order of the first access."""
    found = {}
    for commit, a in trace.of_word(word):
        key = (_lane(commit), a.kind, a.pc)
        count, first = found[key][:2] if key in found else (0, commit.told)
        found[key] = (count + 1, first, commit.told)
    return [Use(lane, kind, pc, *rest) for (lane, kind, pc), rest in found.items()]


def last_store(trace, word, before=None):
    """The last store to the word in a commit below `before`, as (Commit, Access), or None."""
    for commit, access in reversed(trace.of_word(word)):
        if access.kind in isa.STORES and (before is None or commit.number < before):
            return commit, access
    return None
