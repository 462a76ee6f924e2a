"""A search in a file: what it is of is its first line, so that it goes on with nothing else."""

import hashlib
from collections import namedtuple
from pathlib import Path

from .engine import acquires, atom_lines, built

FORMAT = "delorean-search-1"
LONGEST = 512
KINDS = ("program", "engine", "settings")
NO_OTHERS = {
    "program": "%s was saved of another program, or of another MEMORY",
    "engine": "%s was saved by another version of the search, and can't be gone on with; begin again",
    "settings": "%s was saved with other settings: all but --jobs, --seconds, --tries, --states and files to write must be the same",
}

# jobs: processors. save, resume: files, or None. every: seconds from one save to the next.
Manner = namedtuple("Manner", "jobs save resume every", defaults=(1, None, None, 60))


class NotSaved(Exception):
    """args: why the file isn't one to go on from."""


def digest(*parts):
    return hashlib.sha256(b"\0".join(part if isinstance(part, bytes) else repr(part).encode() for part in parts)).hexdigest()[:32]


def stamp(image, condition, options, switches):
    """The first line of a search of these."""
    given = Path(options.input).read_bytes() if options.input else None
    settings = options._replace(input=given is not None)
    return " ".join([FORMAT, digest(image.memory, image.entry, acquires(image)), built().name,
                     digest(settings, given or b"", [*atom_lines(condition)], switches)])


def check(name, wanted):
    """NotSaved if the file wasn't saved by a search of that stamp."""
    try:
        with open(name, "rb") as file:
            line = file.readline(LONGEST)
    except OSError as error:
        raise NotSaved("%s: %s" % (name, error.strerror)) from None
    words, wants = line.decode("ascii", "replace").split(), wanted.split()
    if len(words) != len(wants) or words[0] != FORMAT or not line.endswith(b"\n"):
        raise NotSaved("%s isn't a search that was saved" % name)
    for kind, word, want in zip(KINDS, words[1:], wants[1:]):
        if word != want:
            raise NotSaved(NO_OTHERS[kind] % name)
