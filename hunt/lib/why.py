"""Why a run failed: what a thread went on with although others had stored since. `stale_uses(trace)` finds such loads, and
`switch_lines(trace)` tells them in words, with what `halfway` finds."""

from collections import namedtuple
import tempfile

from . import isa
from .account import Differs, NotWalked
from .halfway import Early, Overwritten, early_at_end, early_looks, overwritten, taken_over
from .naming import naming_of
from .own import Own
from .stacks import stack_lines
from .switches import Crossing, Printing, crossing, ends_badly, forced_switches, printed, printing
from .telling import place, what_served
from .trace import NotRead, context_name, open_trace
from .waiting import waiting_lines
from .whatif import Otherwise
from .words import bits_of, shared_words

# A context loads a word, and is left; others store to it; the context comes back, and does what it wouldn't have done if it had
# found the present value. load: (Commit, Access). stores: the others', until it comes back. use: a whatif.Use.
# is_announced: whether the one that stores had seen, maybe by way of others, something that the context stored after the load.
Stale = namedtuple("Stale", "word load stores use is_announced")


class _Look:
    def __init__(self, load):
        self.load, self.stores = load, []

    def note(self, commit, access):
        if bits_of(self.load[1]) & bits_of(access):
            self.stores.append((commit, access))


def _looks(trace, word):
    """Each load of the word with what others store to it before its context uses the word again."""
    looks, done = {}, []
    for commit, a in trace.of_word(word):
        context = trace.context(commit)
        if a.kind in isa.STORES:
            for other, look in looks.items():
                if other != context:
                    look.note(commit, a)
        if a.kind in isa.STORES or a.kind in isa.LOADS:
            done.append(looks.pop(context, None))
            if a.kind in (isa.LOAD, isa.LR):
                looks[context] = _Look((commit, a))
    return [look for look in done + list(looks.values()) if look and look.stores]


def _returns(trace, look):
    """The stores up to each point at which the context comes back, and its first step then."""
    context = trace.context(look.load[0])
    for place, (commit, _) in enumerate(look.stores):
        mine = trace.commits_of(context, commit.number + 1)[:1]
        after = look.stores[place + 1 : place + 2]
        if mine and not (after and after[0][0].number < mine[0].number):
            yield look.stores[: place + 1], mine[0].first


def _stale(trace, shared, look):
    commit, load = look.load
    for stores, back in _returns(trace, look):
        last = stores[-1][1]
        if (last.new ^ load.new) & bits_of(load):
            use = Otherwise(trace, shared, look.load, last.new, back - 1).use()
            if use and Otherwise(trace, shared, look.load, last.new, back - 1, is_late=True).use():
                return Stale(load.addr & ~3, look.load, stores, use, _is_announced(trace, look.load, stores[0]))
    return None


def _is_announced(trace, load, store):
    """Whether what the context stored after the load has come to the one that stores."""
    informed, told = {trace.context(load[0])}, set()
    for commit in trace.commits[load[0].number : store[0].number + 1]:
        context = trace.context(commit)
        for a in trace.accesses_of(commit):
            if not load[1].step < a.step <= store[1].step:
                continue
            word = a.addr & ~3
            if a.kind in isa.LOADS and word in told:
                informed.add(context)
            if a.kind in isa.STORES:
                (told.add if context in informed else told.discard)(word)
    return trace.context(store[0]) in informed


def stale_uses(trace):
    """All of them, in the order of their uses."""
    shared = frozenset(shared_words(trace))
    found = [_stale(trace, shared, look) for word in sorted(shared) for look in _looks(trace, word)]
    return sorted(filter(None, found), key=lambda stale: (_moment(trace, stale.use), stale.load[1].step))


def _moment(trace, use):
    return use.access.step if use.access else use.commit.first if use.commit else trace.steps


# ---------------------------------------------------------------- in words


def explained(image, memory, log, is_hang=False):
    """The lines for the bytes of a log, for a hang those of hangs.py too; none if its play differs from the walk's account."""
    with tempfile.NamedTemporaryFile(prefix="explained-", suffix=".log") as file:
        file.write(log)
        file.flush()
        try:
            trace = open_trace(image, memory, file.name)
            return [*stack_lines(trace), *switch_lines(trace, True), *(waiting_lines(trace, True) if is_hang else [])]
        except (Differs, NotRead, NotWalked):
            return []


def switch_lines(trace, is_bad=None):
    """Two lines or so for each switch at which a load became stale and was used, or at which others saw what was half done. If there
    are none, those at which the load had been announced, or a thread found another value than its own; or else those at which others
    saw what would be done only after the log's end. If the run is bad, which is looked up if it isn't said, and has few forced switches,
    what came of each other one."""
    return found_lines(trace, found_switches(trace, is_bad))


def found_switches(trace, is_bad=None):
    """(Trace, what was found) of each."""
    told = [(trace, found) for found in _used(trace)] or [(longer, early) for early, longer in early_at_end(trace)]
    if ends_badly(trace) if is_bad is None else is_bad:
        told = told + [(trace, found) for found in _others(trace, told)]
    return sorted(told, key=lambda pair: _step(pair[1]))


def found_lines(trace, told):
    """These in words, those at the same places as one."""
    groups = _folded(told)
    lines = [line for group in groups[:MOST_TOLD] for line in _group_lines(trace, group)]
    return lines + (["%d more like these" % (len(groups) - MOST_TOLD)] if len(groups) > MOST_TOLD else [])


def told_steps(told):
    """The steps of those that are in words, and not only counted."""
    return {step for group in _folded(told)[:MOST_TOLD] for step in _steps(group[0][1])}


def _steps(found):
    """The steps of what was found, in its trace."""
    if isinstance(found, Printing):
        return {commit.first for commit in found if commit}
    use = getattr(found, "use", None)
    pairs = [pair for pair in _pairs(found) if pair] + ([(use.commit, use.access)] if use and use.access else [])
    return {a.step for _, a in pairs} | ({use.commit.first} if use and use.commit else set())


def is_of(own, found):
    """Whether a thread is left in the program's own code, and what another one does meanwhile is there too."""
    return isinstance(found, Printing) or all(own.is_code(a.pc) for _, a in _left(found))


def _pairs(found):
    """The accesses that it is made of, as (Commit, Access)."""
    if isinstance(found, Crossing):
        return [found.last, found.own, found.other]
    if isinstance(found, Early):
        return [found.first, found.load, found.second]
    return [found.load, found.stores[-1]] if isinstance(found, Stale) else [found.own, found.others[-1], found.load]


def _others(trace, told):
    """The Crossings of forced switches that aren't told: of the program's own data if there are any, else Printings, else of its
    locks, else of words of its library."""
    own = Own(trace.image, trace.names)
    for switch in forced_switches(trace):
        if not any(_is_of(switch, *_left(it)) for _, it in told):
            found = crossing(trace, switch, lambda pc: own.is_code(pc) and pc not in own.lock_code) or printing(trace, switch)
            found = found or crossing(trace, switch, own.is_code) or crossing(trace, switch, lambda pc: True)
            yield from filter(None, [found])


def _used(trace):
    stale = stale_uses(trace)
    known = {s.load[1].step for s in stale}
    first = [s for s in stale if not s.is_announced] + [e for e in early_looks(trace) if e.load[1].step not in known]
    return sorted(first or stale + overwritten(trace), key=lambda found: found.load[1].step)


def _step(found):
    """The step after which the thread is left."""
    return (found.last or found.own).first if isinstance(found, Printing) else _left(found)[0][1].step


def _left(found):
    """(the access after which its thread is left, what another one does meanwhile), each as (Commit, Access)."""
    if isinstance(found, Crossing):
        return found.last or found.own, found.other
    if isinstance(found, Early):
        return found.first, found.load
    return (found.load, found.stores[-1]) if isinstance(found, Stale) else (found.own, found.others[-1])


def _is_of(switch, left, other):
    return left[0].actor == switch.thread and switch.last < other[0].number < switch.back


def _folded(told):
    """Those that are at the same places, of the same word, as one list."""
    groups = {}
    for trace, found in told:
        groups.setdefault(found if isinstance(found, Printing) else _places(found), []).append((trace, found))
    return list(groups.values())


def _places(found):
    (_, left), (_, other), use = *_left(found), getattr(found, "use", None)
    return left.pc, other.pc, other.addr, use and use.access and use.access.pc


def _group_lines(trace, group):
    """The lines of the first one, with how many more there are."""
    its, found = group[0]
    first, *rest = _TELL[type(found)](its, found, "after the log's end" if its is not trace else None)
    more = "" if len(group) == 1 else ", and once more" if len(group) == 2 else ", and %d times more" % (len(group) - 1)
    return [first, rest[0] + more, *rest[1:]] if rest else [first + more]


def _who(trace, pair):
    return context_name(trace.context(pair[0]))


def _at(trace, pair, when=None):
    return ", ".join(filter(None, (when or "commit %d" % pair[0].told, naming_of(trace).place_of(pair[1]))))


def _word(trace, pair):
    return naming_of(trace).word_of(pair[1])


def _value(access):
    shift, bits = 8 * (access.addr & 3), (1 << 8 * access.width) - 1
    return "%0*X" % (2 * access.width, access.new >> shift & bits)


def _stale_lines(trace, stale, _):
    load, last = stale.load, stale.stores[-1]
    more = ", after %d more" % (len(stale.stores) - 1) if len(stale.stores) > 1 else ""
    yield "%s is left with %s = %s (%s); %s stores %s (%s%s)," % (
        _who(trace, load), _word(trace, load), _value(load[1]), _at(trace, load),
        _who(trace, last), _value(last[1]), _at(trace, last), more)
    how = "goes on with %s" % _value(load[1]) if stale.use.instead is None else "doesn't check again"
    yield "    and %s %s: it %s" % (_who(trace, load), how, _use(trace, stale.use))
    for own, other in taken_over(trace, load, _moment(trace, stale.use)):
        yield "    meanwhile %s stores %s to %s (%s), where %s had stored %s" % (
            _who(trace, other), _value(other[1]), _word(trace, other), _at(trace, other), _who(trace, own),
            _value(own[1]))


def _early_lines(trace, early, when=None):
    first, load, second = early.first, early.load, early.second
    yield "%s is left after it stores %s to %s (%s), before it stores %s to %s (%s)," % (
        _who(trace, first), _value(first[1]), _word(trace, first), _at(trace, first), _value(second[1]),
        _word(trace, second), _at(trace, second, when))
    yield "    and %s loads %s from there too early (%s): it %s" % (
        _who(trace, load), _value(load[1]), _at(trace, load), _use(trace, early.use))


def _overwritten_lines(trace, found, _):
    own, last, load = found.own, found.others[-1], found.load
    yield "%s is left after it stores %s to %s (%s); %s stores %s (%s)," % (
        _who(trace, own), _value(own[1]), _word(trace, own), _at(trace, own), _who(trace, last), _value(last[1]),
        _at(trace, last))
    yield "    and %s finds that (%s), and goes another way than with %s: it %s" % (
        _who(trace, load), _at(trace, load), _value(own[1]), _use(trace, found.use))


def _crossing_lines(trace, found, _):
    """What another thread does meanwhile with a word that the thread uses after it, or else has used before."""
    last, own, other, is_before = found
    head = "%s is left %s it %s (%s); %s %s (%s)" % (
        _who(trace, own), "after" if last else "before", _does(trace, last or own), _at(trace, last or own), _who(trace, other),
        _does(trace, other), _at(trace, other))
    if last is None or is_before and own == last:
        yield head
        return
    yield head + ","
    if is_before:
        yield "    where %s had %s (%s)" % (_who(trace, own), "stored" if own[1].kind in isa.STORES else "loaded", _at(trace, own))
    elif other[1].kind in isa.STORES and trace.is_look(own[1]):
        yield "    and %s finds that (%s)" % (_who(trace, own), _at(trace, own))
    else:
        how = "over it" if other[1].kind in isa.STORES else "there only then"
        yield "    and %s stores %s %s (%s)" % (_who(trace, own), _value(own[1]), how, _at(trace, own))


def _printing_lines(trace, found, _):
    who, other = (context_name(trace.context(commit)) for commit in (found.own, found.other))
    yield "%s is left %s; %s prints %s," % (
        who, "after it prints " + _print(trace, found.last) if found.last else "before it prints", other, _print(trace, found.other))
    yield "    and %s prints %s only then" % (who, _print(trace, found.own))


def _print(trace, commit):
    """What a commit prints, and where the program asks for it."""
    text = printed(commit).decode("utf-8", "replace")
    shown = text if len(text) <= LONGEST else text[:LONGEST] + "..."
    return '"%s" (commit %d, %s)' % (repr(shown)[1:-1], commit.told, _where(trace, commit))


def _where(trace, commit):
    """Where in the program's own code a call of the kernel comes from."""
    own, chain = naming_of(trace).own, trace.frames.chain(
        trace.pcs[commit.first], commit.before.x, lambda addr: trace.value_before(addr, commit.first))
    return place(trace, next(filter(own.is_code, chain), chain[0]))


def _does(trace, pair):
    freed = naming_of(trace).freed_by(pair[1])
    if freed:
        return "frees " + freed
    how = "stores %s to %s" if pair[1].kind in isa.STORES else "loads %s of %s"
    return how % (_value(pair[1]), _word(trace, pair))


def _use(trace, use):
    if use.access:
        return "%s (%s)" % (_does(trace, (use.commit, use.access)), _at(trace, (use.commit, use.access)))
    if use.commit is None:
        return "never looks again"
    served = use.commit.served
    if printed(use.commit):
        return "prints " + _print(trace, use.commit)
    what = "faults, cause %d" % served.result if served.name in ("fault", "break") else "calls " + what_served(use.commit).replace(" answers ", ", which answers ")
    return "%s (commit %d, %s)" % (what, use.commit.told, _where(trace, use.commit))


_TELL = {Stale: _stale_lines, Early: _early_lines, Overwritten: _overwritten_lines, Crossing: _crossing_lines,
         Printing: _printing_lines}
MOST_TOLD, LONGEST = 8, 40  # lines or so of switches, and characters of what is printed
