"""How often a setting fails: `wilson(bad, tries)` is the interval, `seeds_for(rate)` how many seeds meet a failure."""

from collections import namedtuple
import math

Z = 1.959964  # of 95%, on both sides
SURE = 0.95

# name: of the setting. tries: without those that are live. bad: of them. low, high: the interval of the rate.
Rate = namedtuple("Rate", "name tries bad low high")


def wilson(bad, tries):
    """The interval that has the rate of failures with 95%, by E. B. Wilson (JASA 22, 1927): a pair of numbers from 0 to 1."""
    if tries == 0:
        return 0.0, 1.0
    middle = bad + Z * Z / 2
    half = Z * math.sqrt(bad * (tries - bad) / tries + Z * Z / 4)
    return max(0.0, (middle - half) / (tries + Z * Z)), min(1.0, (middle + half) / (tries + Z * Z))


def seeds_for(rate):
    """How many seeds meet a failure of this rate with 95%; None if none do."""
    if rate <= 0:
        return None
    return 1 if rate >= 1 else math.ceil(math.log(1 - SURE) / math.log(1 - rate))


def rate_of(name, tries, bad):
    return Rate(name, tries, bad, *wilson(bad, tries))


def by_setting(rows):
    """The Rates of settings, those that fail most first, and alike ones in the order of the rows. rows: (name, tries, bad)."""
    rates = [rate_of(*row) for row in rows]
    return sorted(rates, key=lambda rate: (-rate.bad / max(rate.tries, 1), -rate.tries))


def by_value(rows):
    """The Rates of each value of each key, if settings have several keys: all settings that have the value."""
    sums = {}
    for name, tries, bad in rows:
        for value in name.split(" "):
            had = sums.get(value, (0, 0))
            sums[value] = had[0] + tries, had[1] + bad
    if all(" " not in name for name, _, _ in rows):
        return []
    keys = [value.partition("=")[0] for value in sums]
    return [rate_of(value, *sums[value]) for value in sorted(sums, key=lambda value: keys.index(value.partition("=")[0]))]
