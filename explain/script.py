"""Scripts: `read_script(data)` raises Broken with the first wrong line."""

import difflib

from explain.refusal import Broken
from explain.shown import count, listed, quoted
from explain.words import MOST_COMMITS

# Each event, and which numbers follow it.
EVENTS = {"step": "C", "cut": "C", "ask": "C", "drain": "K", "deliver": "CK", "retire": "K", "place": "CST", "raise": "STV",
          "dma": "S"}
NAMES = {"C": "a core", "K": "a slot", "S": "a sphere", "T": "a thread", "V": "a value"}
MOST, MOST_VALUE = 255, (1 << 32) - 1


def read_script(data):
    events = 0
    for n, line in enumerate(data.split(b"\n"), 1):
        if not line.strip(b" ") or line.startswith(b"#"):
            continue
        wrong = wrong_in(line)
        events += 1
        if not wrong and events > MOST_COMMITS:
            wrong = ("it is the event after the 2^24th", "A run has at most 16,777,216 events.")
        if wrong:
            raise Broken((n,), wrong[0], "line %d" % n, wrong[1])


def wrong_in(line):
    """What is wrong with a line that isn't empty or a comment, and what to do; or None."""
    wrong = wrong_characters(line)
    if wrong:
        return wrong
    word, *numbers = line.decode("ascii").split()
    if word not in EVENTS:
        return "%s is no event" % quoted(word), meant(word)
    form = "%s %s" % (word, " ".join(EVENTS[word]))
    if len(numbers) != len(EVENTS[word]):
        found = "%s has %s, but it takes %d" % (quoted(word), count(len(numbers), "number"), len(EVENTS[word]))
        return found, "Write it as `%s`." % form
    for key, text in zip(EVENTS[word], numbers):
        wrong = wrong_number(key, text)
        if wrong:
            return wrong, "Write it as `%s`." % form
    return None


def wrong_characters(line):
    if b"\r" in line:
        return "it has a carriage return", "Lines end with LF alone: `tr -d '\\r'` takes them out."
    if b"\t" in line:
        return "it has a tab", "Write spaces."
    if line.lstrip(b" ").startswith(b"#"):
        return "a comment's `#` isn't the first character of its line", "Take the spaces before it out."
    if b"#" in line:
        return "a comment is after an event", "Give it a line of its own, with the `#` first."
    if any(not 32 <= byte < 127 for byte in line):
        return "it has a character that isn't printable ASCII", "Take it out."
    return None


def meant(word):
    near = difflib.get_close_matches(word.lower(), EVENTS, 1)
    return "Did you mean `%s`?" % near[0] if near else "The events are %s." % listed(map(quoted, EVENTS), "and")


def wrong_number(key, text):
    most = MOST_VALUE if key == "V" else MOST
    if not (text.isascii() and text.isdigit()):
        return "%s isn't a number of decimal digits" % quoted(text)
    if len(text) > 10:
        return "%s has over 10 digits" % quoted(text)
    if int(text) > most:
        return "%s is over %d, the most that %s can be" % (quoted(text), most, NAMES[key])
    return None
