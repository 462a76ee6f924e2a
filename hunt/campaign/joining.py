"""`hunt/seeds join INTO FOLDER ..`: puts campaigns of the same plan, program and conditions together in one folder."""

import argparse
import contextlib
from pathlib import Path
import shutil
import sqlite3
import sys

from lib.searching import Refused

from .command import outcomes_text
from .conduct import Keeping
from .store import NAME, open_folder


def words(texts):
    p = argparse.ArgumentParser(prog="seeds join", description=__doc__)
    p.add_argument("into", metavar="INTO", help="a folder; it may have a campaign already")
    p.add_argument("folders", nargs="+", metavar="FOLDER", help="what --keep named")
    return p.parse_args(texts)


def join(given):
    with contextlib.closing(Keeping(given.into)) as keeping:
        for folder in given.folders:
            if Path(folder).resolve() == keeping.folder.resolve():
                raise Refused("%s can't be joined to itself" % folder)
            with contextlib.closing(open_folder(folder)) as other:
                identity, values = other.identity(), other.values()
            keeping.open(identity, values, True)
            keeping.store.join(str(Path(folder) / NAME))
            copy_finds(Path(folder), keeping.folder)
        counts = keeping.store.counts()
    print(outcomes_text(counts))
    return 0


def copy_finds(source, into):
    for name in [*source.glob("*seed-*.log"), *source.glob("*seed-*.toml")]:
        if not (into / name.name).exists():
            shutil.copy(name, into)


def main(texts):
    try:
        return join(words(texts))
    except (Refused, OSError, sqlite3.Error) as error:
        print("seeds join: %s" % error, file=sys.stderr)
        return 2
