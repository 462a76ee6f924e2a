"""Plans as campaigns take them: `read_plan(name, sphere)` gives a Plan, and `plan.text(..)` the plan of one try.

A try's plan differs from the user's in its seed, its settings and its events, and in the names that are written: these are
all in the try's own folder, so that no name of the user's plan is ever written."""

from collections import namedtuple
import hashlib
from itertools import product
from pathlib import Path
import re
import tomllib

from lib.searching import Refused

SETTINGS = ("cores", "chunk", "buffer", "window", "depth", "signature", "events")
EPOCHS = ("epoch", "keep")
MOST_EVENTS = 1 << 24
MOST_SEED = (1 << 63) - 1
MOST_SETTINGS = 100_000

# values: the tables of the TOML. number: of the sphere that is judged. sum: of the plan's values, without its seed.
Plan = namedtuple("Plan", "values number sum")


def read_plan(name, number=None):
    """The Plan of a file. number: the sphere that is judged; without it, the first one that is recorded."""
    try:
        values = tomllib.loads(Path(name).read_text())
    except OSError as error:
        raise Refused("%s: %s" % (error.filename, error.strerror)) from None
    except (tomllib.TOMLDecodeError, UnicodeDecodeError) as error:
        raise Refused("%s isn't TOML: %s" % (name, error)) from None
    spheres = values.get("sphere")
    if not isinstance(spheres, list) or not spheres or not all(isinstance(sphere, dict) for sphere in spheres):
        raise Refused("%s has no [[sphere]]" % name)
    return Plan(values, recorded_sphere(spheres, number), sum_of(values))


def recorded_sphere(spheres, number):
    recorded = [place for place, sphere in enumerate(spheres) if sphere.get("role") == "record"]
    if not recorded:
        raise Refused('no sphere of the plan is recorded: say role = "record", mode = "order-size" and log = ".."')
    if number is None:
        return recorded[0]
    if number not in recorded:
        raise Refused("sphere %d of the plan isn't recorded" % number)
    return number


def sum_of(values):
    """What tells plans apart: all that they say, except the seed."""
    return hashlib.sha256(toml(without(values, ("seed",))).encode()).hexdigest()


# ---------------------------------------------------------------- settings


def read_varied(texts):
    """Each `KEY=VALUES` as (key, values): VALUES are numbers and ranges with commas between, as `16,32` or `1-4`."""
    varied = []
    for text in texts:
        key, _, values = text.partition("=")
        if key not in SETTINGS:
            raise Refused("--vary %s: %s can't be varied, but %s can" % (text, key, ", ".join(SETTINGS)))
        if key in dict(varied):
            raise Refused("--vary %s: %s is varied twice" % (text, key))
        varied.append((key, [value for part in values.split(",") for value in read_range(part, "--vary " + text)]))
    return varied


def read_range(text, where):
    """The numbers of `A` or `A-B`, as a range."""
    match = re.fullmatch(r"([0-9]{1,19})(?:-([0-9]{1,19}))?", text)
    if not match or int(match[2] or match[1]) < int(match[1]) or int(match[2] or match[1]) > MOST_SEED:
        raise Refused("%s: %s is neither a number nor a range, as 16 or 1-4" % (where, text or "nothing"))
    return range(int(match[1]), int(match[2] or match[1]) + 1)


def settings_of(varied):
    """Every combination of the values, each as a dict; without any, one that changes nothing."""
    count = 1
    for _, values in varied:
        count *= len(values)
    if count > MOST_SETTINGS:
        raise Refused("%d settings are too many: at most %d" % (count, MOST_SETTINGS))
    keys = [key for key, _ in varied]
    return [dict(zip(keys, values)) for values in product(*(values for _, values in varied))]


def setting_name(setting):
    return " ".join("%s=%d" % item for item in setting.items())


# ---------------------------------------------------------------- the plan of a try


def events_of(plan, setting):
    """The plan's events; None if it has a script."""
    return setting.get("events", plan.values.get("events"))


def tried(plan, setting, events, folder, whole=False):
    """The values of a try's plan, without its seed. All that it writes is in the folder. If it is to be whole, no epochs are
    given up."""
    values = without(plan.values, ("seed", "console", "report", "sphere")) | setting
    if events is not None:
        values["events"] = events
    spheres = [tried_sphere(sphere, number, folder, number == plan.number, whole)
               for number, sphere in enumerate(plan.values["sphere"])]
    return values | {"report": "%s/report" % folder, "sphere": spheres}


def without(values, keys):
    return {key: value for key, value in values.items() if key not in keys}


def tried_sphere(sphere, number, folder, is_judged, whole):
    changed = without(sphere, ("account", *EPOCHS) if whole else ("account",))
    if sphere.get("role") == "record":
        changed["log"] = "%s/log" % folder if is_judged else "%s/log-%d" % (folder, number)
    if is_judged:
        changed["account"] = "%s/account" % folder
    return changed


def of_seed(values, seed):
    """The text of a plan with this seed."""
    return "seed = %d\n%s" % (seed, toml(values))


def found_plan(plan, setting, seed, events):
    """The text of the user's plan with what a find has. Its names are the user's own, and its log is whole."""
    values = without(plan.values, ("seed",)) | setting
    spheres = enumerate(values["sphere"])
    values["sphere"] = [without(sphere, EPOCHS) if number == plan.number else sphere for number, sphere in spheres]
    if events is not None:
        values["events"] = events
    return of_seed(values, seed)


def toml(values):
    """The text of a plan's values. The seed may be put before it."""
    lines = ["%s = %s" % (key_text(key), value_text(value)) for key, value in values.items() if key != "sphere"]
    for sphere in values["sphere"]:
        lines += ["[[sphere]]", *("%s = %s" % (key_text(key), value_text(value)) for key, value in sphere.items())]
    return "\n".join(lines) + "\n"


def key_text(key):
    return key if re.fullmatch(r"[A-Za-z0-9_-]+", key) else quoted(key)


def value_text(value):
    if isinstance(value, bool):
        return "true" if value else "false"
    if isinstance(value, (int, float)):
        return repr(value)
    if isinstance(value, str):
        return quoted(value)
    raise Refused("the plan has a value that no plan has: %s" % (value,))


def quoted(text):
    return '"%s"' % re.sub(r'[\x00-\x1f\x7f"\\]', lambda found: "\\u%04X" % ord(found[0]), text)
