"""A campaign from its first try to its last: `Conductor(..).conduct()` gives work to a pool, and writes what comes back."""

import fcntl
import os
from pathlib import Path
import signal
import time

from lib.searching import Refused

from . import plans
from .identity import DIFFERENT
from .store import NAME, Store
from .trying import BAD, HUNG, OUTCOMES
from .work import Ordered, Work

TICK = 0.25   # seconds that the command waits for results, at most
WAITING = 64  # batches for each job that may wait for one before them
LISTED = 20   # finds that are told one by one
FILES = 1000  # finds whose logs are files too; those of all others are in the campaign's file alone
MOST_HELD = 10_000  # results that wait to be written, which is done once a second else


class Stop:
    """Set by Ctrl-C and by SIGTERM, so that both end a campaign between two steps."""

    def __init__(self):
        self.is_set = False
        for number in (signal.SIGINT, signal.SIGTERM):
            signal.signal(number, self.set)

    def set(self, *_):
        self.is_set = True
        signal.signal(signal.SIGINT, signal.SIG_DFL)  # the second one ends at once


class Keeping:
    """The folder in which a campaign keeps its file and its finds; None keeps nothing after the end."""

    def __init__(self, folder):
        self.folder, self.lock, self.files = folder and Path(folder), None, 0
        if folder is not None:
            self.take_folder()
        self.store = Store(str(self.folder / NAME) if folder is not None else ":memory:")

    def take_folder(self):
        try:
            self.folder.mkdir(parents=True, exist_ok=True)
            self.lock = os.open(self.folder, os.O_RDONLY)
            fcntl.flock(self.lock, fcntl.LOCK_EX | fcntl.LOCK_NB)
        except BlockingIOError:
            raise Refused("another command works in %s" % self.folder) from None
        except OSError as error:
            raise Refused("%s: %s" % (error.filename or self.folder, error.strerror)) from None

    def open(self, identity, values, resumes):
        """Begins the campaign, or sees that it is the one to go on with."""
        if self.store.is_new:
            self.store.begin(identity, values)
            return
        self.files = self.store.count_finds()
        if not resumes:
            raise Refused("%s has a campaign: go on with it by --resume, or take another folder" % self.folder)
        for name, mine, theirs in zip(identity._fields, identity, self.store.identity()):
            if mine != theirs:
                raise Refused("the campaign in %s has %s" % (self.folder, DIFFERENT[name]))

    def keep(self, plan, setting, seed, result):
        """Writes a find's log and plan; the name of the log, or None if there are enough."""
        if self.folder is None or self.files >= FILES:
            return None
        self.files += 1
        name = "-".join([*("%s-%d" % item for item in setting.items()), "seed-%d" % seed])
        write_whole(self.folder / (name + ".log"), result.log)
        write_whole(self.folder / (name + ".toml"), plans.found_plan(plan, setting, seed, result.events or None).encode())
        return self.folder / (name + ".log")

    def close(self):
        self.store.close()
        if self.lock is not None:
            os.close(self.lock)


def write_whole(name, data):
    """A file that is there whole or not at all."""
    new = name.with_name(name.name + ".new")
    new.write_bytes(data)
    new.replace(name)


class Conductor:
    """seeds: a range. stop_after: how many bad runs are enough, or None."""

    def __init__(self, campaign, seeds, keeping, progress, stop_after, stop):
        self.campaign, self.keeping, self.progress, self.stop = campaign, keeping, progress, stop
        self.store, self.stop_after = keeping.store, stop_after
        self.names = [plans.setting_name(setting) for setting in campaign.settings]
        self.work, self.ordered = Work(seeds, self.names, self.store), Ordered()
        self.batches, self.given, self.results, self.written = {}, 0, [], time.monotonic()
        self.listed = self.bad = 0
        self.had = sum(self.store.counts())
        self.failure, self.is_over = None, False

    def conduct(self, pool):
        """Until all is tried, enough is found, a try fails, or it is stopped."""
        while not self.is_over and not self.stop.is_set:
            self.give(pool)
            if not self.batches:
                break
            self.collect(pool.wait(TICK))
        if self.stop.is_set:
            self.collect_late(pool)
        self.write()
        if self.failure:
            raise self.failure

    def give(self, pool):
        while pool.has_room() and self.given < self.ordered.next + WAITING * len(pool.workers):
            batch = self.work.take(self.size(pool))
            if not batch:
                return
            self.batches[self.given] = batch
            pool.give(self.given, batch)
            self.given += 1

    def size(self, pool):
        """How many tries a batch has: as many as a worker does in the pool's seconds."""
        return min(pool.MOST, max(pool.LEAST, int(pool.SECONDS * self.progress.rate() / len(pool.workers))))

    def collect(self, done):
        for one in done:
            self.ordered.put(one.number, one)
        for one in self.ordered.ready():
            self.take(one)
        if time.monotonic() - self.written >= 1 or len(self.results) >= MOST_HELD:
            self.write()
        self.progress.show()

    def collect_late(self, pool):
        """What is still done shortly after a stop, and what came before its turn."""
        pool.stop()
        deadline = time.monotonic() + 4 * TICK
        while self.batches.keys() - self.ordered.held.keys() and time.monotonic() < deadline:
            self.collect(pool.wait(TICK))
        for one in self.ordered.rest():
            self.take(one)

    def take(self, done):
        """Takes a batch's results, unless the campaign is over by one before them."""
        batch = self.batches.pop(done.number)
        for (number, seed), result in zip(batch, done.results):
            if self.is_over:
                return
            self.take_result(number, seed, result)
        if done.failure and not self.is_over:
            self.fail(done.failure, *batch[len(done.results)])

    def fail(self, failure, number, seed):
        where = ", ".join(filter(None, ["seed %d" % seed, self.names[number]]))
        self.failure, self.is_over = type(failure)("%s: %s" % (where, failure)), True

    def take_result(self, number, seed, result):
        self.results.append((self.names[number], seed, result))
        self.progress.count(result.outcome)
        if result.outcome in (BAD, HUNG):
            log = self.keeping.keep(self.campaign.plan, self.campaign.settings[number], seed, result)
            self.tell(self.names[number], seed, result, log)
        self.bad += result.outcome == BAD
        if self.stop_after and self.bad >= self.stop_after:
            self.is_over = True

    def tell(self, setting, seed, result, log):
        self.listed += 1
        if self.listed > LISTED:
            return
        self.progress.clear()
        words = ["seed %d%s: %s" % (seed, setting and ", " + setting, OUTCOMES[result.outcome]), result.threads]
        print("; ".join([", ".join(words), *([str(log)] if log else [])]), flush=True)

    def write(self):
        if self.results:
            self.store.add(self.results)
        self.results, self.written = [], time.monotonic()
