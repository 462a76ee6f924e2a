"""Plans: `read_plan(name, document)` raises Broken with the first rule that the whole plan breaks, the key that breaks it, and
its line. The rules are those of rules.PLAN; rule 1 is document.py's, and roles.py has 6 and 8 to 10."""

from collections import Counter
import difflib

from explain import keys
from explain.refusal import Broken
from explain.roles import check_chunk, check_epochs, check_intervals, check_roles
from explain.shown import count, listed, quoted, value


def read_plan(name, document):
    for check in (check_keys, check_values, check_numbers, check_schedule, check_roles):
        check(document)
    check_names(document, name)
    for check in (check_chunk, check_intervals, check_epochs):
        check(document)


def tables(document):
    """Each table of the document: its path, itself, and its keys."""
    yield (), document.top, keys.TOP
    spheres = document.top.get("sphere")
    for i, sphere in enumerate(spheres if isinstance(spheres, list) else ()):
        if isinstance(sphere, dict):
            yield ("sphere", i), sphere, keys.SPHERE


def of(path):
    """Whose key it is, as a part of a sentence."""
    return " of sphere %d" % path[1] if path else ""


# ---------------------------------------------------------------- rule 2


def check_keys(document):
    for path, table, known in tables(document):
        for key in table:
            if key not in known:
                found = "%s isn't a key %s" % (quoted(key), "of a sphere" if path else "of the top")
                raise Broken((2,), found, document.place(*path, key), what_is_meant(key, path, known))


def what_is_meant(key, path, known):
    """What to do about a key that isn't one of its table."""
    if path and key in keys.TOP:
        return "It is one of the top: put it before the first `[[sphere]]`."
    if not path and key in keys.SPHERE:
        return "It is one of a sphere: put it after a line `[[sphere]]`."
    near = difflib.get_close_matches(key, known, 1)
    return "Did you mean %s?" % quoted(near[0]) if near else "The keys are %s." % listed(map(quoted, known), "and")


# ---------------------------------------------------------------- rule 3

KINDS = {bool: "true or false", int: "a whole number", float: "a number with a point", str: "a string", list: "an array",
         dict: "a table"}


def check_values(document):
    for path, table, known in tables(document):
        for key, v in table.items():
            check_kind(document, (*path, key), v, known[key].kind)
        for key in known:
            if known[key].is_required and key not in table:
                raise Broken((3,), "the key %s%s is missing" % (quoted(key), of(path)), document.place(*path) if path else "",
                             "Add it.")
    for path, table, _ in tables(document):
        for key, names in keys.NAMES.items():
            if key in table and path and table[key] not in names:
                raise Broken((3,), "%s is %s, but it has to be %s" % (quoted(key), value(table[key]), listed(map(value, names))),
                             document.place(*path, key), "Change it.")


def check_kind(document, path, v, kind):
    if path == ("sphere",):
        check_spheres(document, v)
    elif not keys.is_a(v, kind):
        wanted = "a whole number" if kind is int else "a string"
        found = "%s is %s, but it has to be %s" % (quoted(path[-1]), KINDS.get(type(v), "a date or a time"), wanted)
        to_do = "Write it without quotes and point." if kind is int else "Write it in quotes."
        raise Broken((3,), found, document.place(*path), to_do)


def check_spheres(document, spheres):
    if not isinstance(spheres, list):
        raise Broken((3,), "`sphere` is %s, but it has to be an array of tables" % KINDS.get(type(spheres), "a date or a time"),
                     document.place("sphere"), "Write `[[sphere]]` with two brackets.")
    if not all(isinstance(sphere, dict) for sphere in spheres):
        raise Broken((3,), "an item of `sphere` isn't a table", document.place("sphere"), "Write `[[sphere]]` for each.")


# ---------------------------------------------------------------- rules 4 and 5


def check_numbers(document):
    for path, table, known in tables(document):
        for key, v in table.items():
            if keys.is_a(v, int) and not keys.is_within(key, v, known):
                raise Broken((4,), "%s is %d, but it has to be %s" % (quoted(key), v, keys.wanted(key, known)),
                             document.place(*path, key), "")
    spheres = len(document.top.get("sphere", []))
    if not 1 <= spheres <= keys.MOST_SPHERES:
        raise Broken((4,), "there are %s, but there have to be 1 to 8" % count(spheres, "sphere"),
                     "", "" if spheres else "Write `[[sphere]]`, and its keys after it.")


def check_schedule(document):
    there = [key for key in ("events", "script") if key in document.top]
    if len(there) == 2:
        raise Broken((5,), "`events` and `script` are both there", document.place("script"), "Take one of them out.")
    if not there:
        raise Broken((5,), "neither `events` nor `script` is there", "",
                     "Say how many events are drawn, or name a script; `events = 0` will do for a replay.")


# ---------------------------------------------------------------- rule 7


def check_names(document, name):
    written, read = written_names(document), read_names(document)
    for path, file in written + read:
        if not file:
            raise Broken((7,), "%s is an empty name" % quoted(path[-1]), document.place(*path), "Give the file a name.")
    times = Counter(file for _, file in written)
    readers = {file: path for path, file in reversed(read)}
    for path, file in written:
        if file == name:
            raise Broken((7,), "%s would be written over the plan itself" % value(file), document.place(*path),
                         "Give it another name.")
        if file in readers:
            raise Broken((7,), "%s is written as %s, and read as %s" % (value(file), named(path), named(readers[file])),
                         document.place(*path), "Give what is written another name.")
        if times[file] > 1:
            raise second_writer(document, written, file)


def second_writer(document, written, file):
    first, second = [path for path, other in written if other == file][:2]
    return Broken((7,), "%s is written twice, as %s and as %s" % (value(file), named(first), named(second)),
                  document.place(*second), "Give one of them another name.")


def named(path):
    return quoted(path[-1]) + of(path[:-1])


def written_names(document):
    """The path and the name of each file that is written, in the order in which they are."""
    out = []
    for path, table, _ in tables(document):
        keys_written = () if not path else ("log", "account") if table["role"] == "record" else ("account",)
        out += [((*path, key), table[key]) for key in keys_written if key in table]
    return out + [((key,), document.top[key]) for key in ("console", "report") if key in document.top]


def read_names(document):
    """Likewise of each file that is read."""
    out = [((key,), document.top[key]) for key in ("script", "input") if key in document.top]
    for path, table, _ in tables(document):
        if path:
            wanted = ("image", "log", "strata") if table["role"] == "replay" else ("image",)
            out += [((*path, key), table[key]) for key in wanted if key in table]
    return out
