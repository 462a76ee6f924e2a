"""What comes of a thread that is left between two stores, or between a store and a load: `early_looks(trace)`, `early_at_end(trace)`,
`overwritten(trace)`, and `taken_over(trace, load, until)`."""

from bisect import bisect_right
from collections import namedtuple

from . import isa
from .loops import next_store
from .whatif import Otherwise
from .words import bits_of, shared_words

# A context stores (first) and is left before it stores elsewhere (second). Another one sees the first store, and loads the word
# of the second one too early. use: what it wouldn't have done with the value of the second store. Each is (Commit, Access).
Early = namedtuple("Early", "word first load second use")
# A context stores to a word, others store on top, and it loads that. use: what it does after a branch that would have gone elsewhere
# with its own value.
Overwritten = namedtuple("Overwritten", "word own others load use")


class _Stores:
    """Of each context its stores that change shared words, and of each word the same."""

    def __init__(self, trace, shared):
        self.of_context, self.of_word = {}, {}
        for commit in trace.commits:
            for a in trace.accesses_of(commit):
                if a.kind in isa.STORES and a.addr & ~3 in shared and a.old != a.new:
                    pair = commit, a
                    self.of_context.setdefault(trace.context(commit), []).append(pair)
                    self.of_word.setdefault(a.addr & ~3, []).append(pair)

    @staticmethod
    def around(stores, step):
        """The last store before the step and the first one after it, or None."""
        j = bisect_right(stores, step, key=lambda pair: pair[1].step)
        return stores[j - 1] if j else None, stores[j] if j < len(stores) else None


def early_looks(trace):
    """All of them, in the order of the loads; of equal loads in a row the first one."""
    shared = frozenset(shared_words(trace))
    stores, found = _Stores(trace, shared), {}
    for word in sorted(shared & stores.of_word.keys()):
        for pair in trace.of_word(word):
            if pair[1].kind in (isa.LOAD, isa.LR):
                early = _early(trace, shared, stores, pair)
                if early:
                    found.setdefault((trace.context(pair[0]), early.second[1].step), early)
    return sorted(found.values(), key=lambda early: early.load[1].step)


def early_at_end(trace):
    """Looks that were too early for a store that the log doesn't have any more, as (Early, the Trace of the log that is longer by it).
    Each live thread goes on alone to its next store, and that is walked."""
    if trace.longer is None or trace.end[0] != "complete":
        return []
    found = []
    for k, thread in enumerate(trace.machine.threads):
        commits = next_store(trace.machine, k, trace.log.s, _words_of_others(trace, k)) if thread.live() else None
        if commits:
            longer = trace.longer([(k, *commit) for commit in commits])
            found += [(early, longer) for early in early_looks(longer) if early.second[0].number >= len(trace.commits)]
    return found


def _words_of_others(trace, k):
    return {a.addr & ~3 for commit in trace.commits if commit.actor != k for a in trace.accesses_of(commit)}


def _early(trace, shared, stores, load):
    word, context = load[1].addr & ~3, trace.context(load[0])
    second = stores.around(stores.of_word[word], load[1].step)[1]
    if not second or trace.context(second[0]) == context or not (second[1].new ^ load[1].new) & bits_of(load[1]):
        return None
    first = stores.around(stores.of_context[trace.context(second[0])], load[1].step)[0]
    if not first or first[1].addr & ~3 == word or not trace.is_blind(first[1]):
        return None
    if not _has_seen(trace, stores, context, first, load) or _has_news(trace, stores, first, second):
        return None
    use = Otherwise(trace, shared, load, second[1].new, load[1].step).use()
    return Early(word, first, load, second, use) if use else None


def _has_seen(trace, stores, context, store, load):
    """Whether the context has loaded what was stored, before its load."""
    word, (_, after) = store[1].addr & ~3, stores.around(stores.of_word[store[1].addr & ~3], store[1].step)
    end = min(load[1].step, after[1].step if after else load[1].step)
    return any(store[1].step < a.step <= end and a.kind in isa.LOADS and trace.context(commit) == context
               for commit, a in trace.of_word(word))


def _has_news(trace, stores, first, second):
    """Whether a context loads between two of its stores what others have stored since the first one."""
    context = trace.context(first[0])
    for commit in trace.commits_of(context, first[0].number):
        for a in trace.accesses_of(commit) if commit.number <= second[0].number else ():
            if first[1].step < a.step < second[1].step and a.kind in isa.LOADS:
                last = stores.around(stores.of_word.get(a.addr & ~3, ()), a.step - 1)[0]
                if last and last[1].step > first[1].step and trace.context(last[0]) != context:
                    return True
    return False


def overwritten(trace):
    """All of them, in the order of the loads."""
    shared, found = frozenset(shared_words(trace)), []
    for word in sorted(shared):
        own = {}
        for commit, a in trace.of_word(word):
            mine = own.pop(trace.context(commit), None)
            if mine and mine[1] and a.kind in (isa.LOAD, isa.LR):
                found.append(_overwritten(trace, shared, (commit, a), *mine))
            if a.kind in isa.STORES:
                for _, others in own.values():
                    others.append((commit, a))
                own[trace.context(commit)] = (commit, a), []
    return sorted(filter(None, found), key=lambda one: one.load[1].step)


def _overwritten(trace, shared, load, own, others):
    if not (own[1].new ^ load[1].new) & bits_of(load[1]):
        return None
    use = Otherwise(trace, shared, load, own[1].new, load[1].step).use()
    return Overwritten(load[1].addr & ~3, own, others, load, use) if use and use.instead is not None else None


def taken_over(trace, load, until):
    """What others change between a context's load and a step, of words that the context had stored to itself, and stores to later
    without a look: (its own store, theirs), each as (Commit, Access), one for each word."""
    context, found = trace.context(load[0]), []
    for word in shared_words(trace):
        own = other = None
        for commit, a in trace.of_word(word):
            if trace.context(commit) != context:
                is_between = own and load[1].step < a.step < until and a.kind in isa.STORES and a.old != a.new
                other = other or ((commit, a) if is_between else None)
            elif other and a.step >= until:
                found += [(own, other)] if trace.is_blind(a) else []
                break
            else:
                own, other = (commit, a) if a.kind in isa.STORES else None, None
    return found
