"""What a sphere of each role has to have, and may not: rules 6, 8, 9 and 10 of plans."""

from explain.refusal import Broken
from explain.shown import listed, number, quoted

NEEDS = {"record": ("mode", "log"), "replay": (), "plain": ()}
FORBIDS = {"record": ("strata",), "replay": ("mode", "version"), "plain": ("mode", "version", "log", "strata")}
ROLES = {"record": "recorded", "replay": "replayed", "plain": "plain"}
MOST_RECORDED = 4096  # the most instructions of a chunk in a log of version 1


def spheres(document):
    return enumerate(document.top["sphere"])


def check_roles(document):
    for i, sphere in spheres(document):
        role = sphere["role"]
        for key in NEEDS[role]:
            if key not in sphere:
                found = "sphere %d is recorded, and has no %s" % (i, quoted(key))
                raise Broken((6,), found, document.place("sphere", i), "Add it.")
        for key in FORBIDS[role]:
            if key in sphere:
                found = "%s doesn't belong in a %s sphere" % (quoted(key), ROLES[role])
                raise Broken((6,), found, document.place("sphere", i, key), without(role))
        if role == "replay":
            check_replayed(document, i, sphere)


def without(role):
    if role == "replay":
        return "Take it out: a replay has the mode and the version of its log."
    return "Take it out."


def check_replayed(document, i, sphere):
    if "log" in sphere and "strata" in sphere:
        raise Broken((6,), "sphere %d has both `log` and `strata`" % i, document.place("sphere", i, "strata"),
                     "Take one of them out.")
    if "log" not in sphere and "strata" not in sphere:
        raise Broken((6,), "sphere %d is replayed, and has neither a log nor strata" % i, document.place("sphere", i), "Add `log`.")


def check_chunk(document):
    chunk = document.top["chunk"]
    for i, sphere in spheres(document):
        if chunk > MOST_RECORDED and sphere["role"] == "record" and sphere.get("version", 1) == 1:
            raise Broken((8,), "`chunk` is %s, and sphere %d is recorded in version 1, whose chunks have at most 4,096 instructions"
                         % (number(chunk), i), document.place("chunk"), "Say `version = 2` in the sphere, or take a smaller chunk.")


def check_intervals(document):
    for i, sphere in spheres(document):
        there = [key for key in ("from", "to") if key in sphere]
        if there and (sphere["role"] != "replay" or "strata" in sphere):
            raise Broken((9,), "%s is only for a sphere that replays a log" % quoted(there[0]),
                         document.place("sphere", i, there[0]))
        if len(there) == 2 and sphere["from"] > sphere["to"]:
            raise Broken((9,), "`from` is %d, and over `to`, which is %d" % (sphere["from"], sphere["to"]),
                         document.place("sphere", i, "from"), "Exchange them, or change one.")


def check_epochs(document):
    for i, sphere in spheres(document):
        there = [key for key in ("epoch", "keep") if key in sphere]
        if there and (sphere["role"] != "record" or sphere.get("version", 1) != 2):
            found, taken_out = only_in_version_2(there)
            to_do = "Say `version = 2`." if sphere["role"] == "record" else taken_out
            raise Broken((10,), found, document.place("sphere", i, there[0]), to_do)
        if len(there) == 1:
            other = "keep" if there == ["epoch"] else "epoch"
            found = "%s is there without %s" % (quoted(there[0]), quoted(other))
            raise Broken((10,), found, document.place("sphere", i, there[0]), "Add the other.")


def only_in_version_2(there):
    """What is wrong with these keys, and what to do in a sphere that isn't recorded."""
    is_one = len(there) == 1
    found = "%s %s only for a sphere that is recorded in version 2" % (listed(map(quoted, there), "and"), "is" if is_one else "are")
    return found, "Take %s out." % ("it" if is_one else "them")
