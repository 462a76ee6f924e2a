"""Processes that try: `Pool(campaign, jobs, scratch)` gives them batches, and says what came back.

A batch is a list of (number of a setting, seed). A worker that is killed loses only its batches, which go to another one."""

from collections import deque, namedtuple
import contextlib
import multiprocessing
from multiprocessing import connection
import os
import shlex
import signal

from lib.account import NotWalked
from lib.judge import Differs
from lib.searching import Refused

from .program import Failed
from .trying import Trier

AHEAD = 2    # batches that a worker has, so that it needn't wait for the next
LOSSES = 5   # of workers in the same batch

# number: of the batch. results: of its tries, in order. failure: what kept it from its end, or None.
Done = namedtuple("Done", "number results failure")


class Worker:
    """A process, the end of its pipe, and the numbers of the batches that it has."""

    def __init__(self, campaign, scratch, folder):
        self.pipe, theirs = multiprocessing.Pipe()
        self.batches = deque()
        self.process = os.fork()
        if self.process == 0:
            close_all_but(theirs.fileno(), scratch.lock)
            work(campaign, folder, theirs)
        theirs.close()

    def end(self):
        """Ends the process at once, if it is still there."""
        self.pipe.close()
        os.kill(self.process, signal.SIGKILL)
        os.waitpid(self.process, 0)


def close_all_but(*kept):
    """Closes what a new process has from the command: other pipes, which would stay open when the command dies, and files."""
    for number in map(int, os.listdir("/proc/self/fd")):
        if number > 2 and number not in kept:
            with contextlib.suppress(OSError):
                os.close(number)


def work(campaign, folder, pipe):
    """What a worker does until its pipe is closed. It ends the process."""
    signal.signal(signal.SIGINT, signal.SIG_IGN)
    signal.signal(signal.SIGTERM, signal.SIG_DFL)
    os.environ["DELOREAN"] = shlex.join(campaign.program)  # so that walks start no shell either
    try:
        os.mkdir(folder)
        trier = Trier(campaign, folder)
        while True:
            number, tries = pipe.recv()
            pipe.send(tried(trier, number, tries))
    except (EOFError, OSError):
        os._exit(0)
    except BaseException:
        import traceback

        traceback.print_exc()
        os._exit(1)


def tried(trier, number, tries):
    results = []
    try:
        for setting, seed in tries:
            results.append(trier.tried(setting, seed))
    except (Failed, Differs, Refused) as error:
        return Done(number, results, error)
    except (NotWalked, OSError) as error:
        return Done(number, results, Refused(str(error.args[0] if isinstance(error, NotWalked) else error)))
    return Done(number, results, None)


class Pool:
    SECONDS, LEAST, MOST = 0.25, 1, 1000  # of a batch, and tries of one

    def __init__(self, campaign, jobs, scratch):
        self.campaign, self.scratch, self.started = campaign, scratch, 0
        self.tries, self.losses, self.workers = {}, {}, []
        for _ in range(jobs):
            self.start()

    def start(self):
        self.started += 1
        folder = os.path.join(self.scratch.folder, str(self.started))
        self.workers.append(Worker(self.campaign, self.scratch, folder))

    def has_room(self):
        return any(len(worker.batches) < AHEAD for worker in self.workers)

    def give(self, number, tries):
        """Gives a batch to the worker that has the fewest."""
        self.tries[number] = tries
        self.send(number)

    def send(self, number):
        worker = min(self.workers, key=lambda worker: len(worker.batches))
        worker.batches.append(number)
        try:
            worker.pipe.send((number, self.tries[number]))
        except OSError:
            pass  # it has died, which wait() sees

    def stop(self):
        """No more batches come, and those that are done shortly are all that will be."""

    def wait(self, seconds):
        """The batches that were done within so many seconds, as a list of Done."""
        done = []
        ready = connection.wait([worker.pipe for worker in self.workers], seconds)
        for worker in [worker for worker in self.workers if worker.pipe in ready]:
            try:
                done.append(worker.pipe.recv())
                worker.batches.remove(done[-1].number)
                del self.tries[done[-1].number]
            except (EOFError, OSError):
                self.replace(worker)
        return done

    def replace(self, worker):
        """Another worker for one that has died; its batches are given again."""
        self.workers.remove(worker)
        worker.end()
        self.start()
        for number in worker.batches:
            self.losses[number] = self.losses.get(number, 0) + 1
            if self.losses[number] == LOSSES:
                first = self.tries[number][0][1]
                raise Refused("%d workers died, one after another, in the tries from seed %d on" % (LOSSES, first))
            self.send(number)

    def close(self):
        for worker in self.workers:
            worker.end()
        self.workers.clear()
