"""Strata: `read_strata(data)` gives them, or raises Broken with the first field that isn't good."""

from collections import namedtuple

from explain.fields import FIELD, VERSION, Fields
from explain.log import read_records, read_short_sizes
from explain.refusal import Broken
from explain.words import MOST_COMMITS

CHUNKS, SERIAL, DMA = range(3)
MOST_THREADS = 63

# threads: how many the sphere may have. size: the standard one of a chunk. sections: the offset at which they begin.
Strata = namedtuple("Strata", "threads size strata sections")
# kind: CHUNKS, SERIAL or DMA. counts: of chunks, the number of each thread; else the thread alone, or nothing.
Stratum = namedtuple("Stratum", "kind counts")


def read_strata(data):
    f = Fields(data)
    f.beginning(b"DLRS")
    f.one_of(1, "the version", (1,), VERSION)
    counted = f.number(1, "the number of threads that are counted", MOST_THREADS, 1)
    threads = f.one_of(2, "the number of threads that the sphere may have", [n for n in (15, 63) if n >= counted])
    s = f.number(4, "the standard size of a chunk", 65536, 16)
    strata, commits = [], 0
    for i in range(f.number(4, "the number of strata")):
        start = f.at
        strata.append(read_stratum(f, "stratum %d" % i, counted))
        commits += sum(strata[-1].counts) if strata[-1].kind == CHUNKS else 1
        check_stratum(start, i, strata[-1], commits)
    sections = f.at
    read_short_sizes(f, 4, s, counted)
    read_records(f, counted)
    f.end()
    return Strata(threads, s, strata, sections)


def read_stratum(f, name, counted):
    kind = f.number(1, "the kind of %s" % name, DMA)
    if kind == CHUNKS:
        return Stratum(kind, f.take(counted, "the numbers of chunks in %s" % name))
    return Stratum(kind, bytes([f.number(1, "the thread of %s" % name, counted - 1)]) if kind == SERIAL else b"")


def check_stratum(start, i, stratum, commits):
    if stratum.kind == CHUNKS and not any(stratum.counts):
        raise Broken((FIELD, start), "stratum %d has no chunks" % i, "byte %d" % start)
    if commits > MOST_COMMITS:
        raise Broken((FIELD, start), "with stratum %d the commits are over 16,777,216" % i, "byte %d" % start)
