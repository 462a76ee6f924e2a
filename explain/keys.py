"""The keys of a plan: which there are at the top and in a sphere, of which type, and within which limits."""

from collections import namedtuple

from explain.shown import listed, number
from explain.words import MOST_COMMITS, MOST_MEMORY, range_of

# kind: int, str or list. limits: (least, most) of a number, or None. step: what it is a multiple of.
Key = namedtuple("Key", "kind is_required limits step", defaults=(False, None, 1))

TOP = {
    "cores": Key(int, True, (1, 8)),
    "chunk": Key(int, True, (16, 65536)),
    "buffer": Key(int, True, (1, 4096)),
    "window": Key(int, True, (1, 8)),
    "depth": Key(int, False, (1, 2)),
    "signature": Key(int, True, (64, 2048)),
    "seed": Key(int, False, (0, (1 << 63) - 1)),
    "events": Key(int, False, (0, MOST_COMMITS)),
    "script": Key(str),
    "input": Key(str),
    "console": Key(str),
    "report": Key(str),
    "sphere": Key(list),
}
SPHERE = {
    "image": Key(str, True),
    "memory": Key(int, True, (4096, MOST_MEMORY), 4096),
    "role": Key(str, True),
    "mode": Key(str),
    "version": Key(int, False, (1, 2)),
    "log": Key(str),
    "strata": Key(str),
    "from": Key(int, False, (0, MOST_COMMITS)),
    "to": Key(int, False, (0, MOST_COMMITS)),
    "epoch": Key(int, False, (1, MOST_COMMITS)),
    "keep": Key(int, False, (1, 64)),
    "account": Key(str),
}
NAMES = {"role": ("plain", "record", "replay"), "mode": ("order-size", "order-only", "picolog")}
SIGNATURES = (64, 128, 256, 512, 1024, 2048)
MOST_SPHERES = 8


def is_a(v, kind):
    return isinstance(v, kind) and not (kind is int and isinstance(v, bool))


def is_within(key, v, keys):
    """Whether a number is one that its key may have."""
    if key == "signature":
        return v in SIGNATURES
    least, most = keys[key].limits
    return least <= v <= most and v % keys[key].step == 0


def wanted(key, keys):
    """What a number may be, in words."""
    if key == "signature":
        return listed(map(number, SIGNATURES))
    if key == "seed":
        return "0 to 2^63 - 1"
    return range_of(*keys[key].limits, keys[key].step)
