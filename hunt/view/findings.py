"""What hunt/trace's `lost` and `aba` find, by the numbers of the accesses: `findings(trace)`."""

from collections import namedtuple

from lib.telling import lane_name, values
from lib.words import aba, lost

# accesses: numbers of the trace's, in their order: the load, the others' stores (of many the first and the last), the store on
# top. text: all of it in words.
Finding = namedtuple("Finding", "kind accesses text")


def findings(trace):
    """All of them, in the order in which they begin."""
    found = [_finding(trace, "lost", find) for find in lost(trace)] + [_finding(trace, "aba", find) for find in aba(trace)]
    return sorted(found, key=lambda finding: finding.accesses[0])


def _finding(trace, kind, find):
    others = find.others if len(find.others) <= 3 else [find.others[0], find.others[-1]]
    accesses = [_number(trace, *pair) for pair in (find.load, *others, find.store)]
    commit, access = find.load
    last = find.others[-1]
    text = "%s: %s loads %s of %s in commit %d; %s stores %s in commit %d%s; %s stores %s in commit %d" % (
        kind, _who(commit), values(access).split(" ")[0], trace.names.name(find.word), commit.told,
        _who(last[0]), values(last[1]), last[0].told, _more(len(find.others) - 1),
        _who(find.store[0]), values(find.store[1]), find.store[0].told)
    return Finding(kind, accesses, text)


def _who(commit):
    return lane_name((commit.actor, commit.handler > 0))


def _more(count):
    return ", the last of %d stores" % (count + 1) if count else ""


def _number(trace, commit, access):
    """The number of one access of a commit."""
    return next(j for j in range(commit.first_access, commit.last_access) if trace.accesses[j] is access)
