"""A campaign that is killed again and again, as `kill -9` does, and gone on with: `kill_and_resume(..)`."""

import os
import random
import signal
import subprocess
import sys
import time
from pathlib import Path

TOP = Path(__file__).resolve().parent.parent.parent


def children(process):
    """The processes that this one has started."""
    try:
        return list(map(int, Path("/proc/%d/task/%d/children" % (process, process)).read_text().split()))
    except OSError:
        return []


def kill(process):
    try:
        os.kill(process, signal.SIGKILL)
    except ProcessLookupError:
        pass


def kill_some_worker(command, rng):
    workers = children(command.pid)
    if workers:
        kill(rng.choice(workers))


def resumed(words):
    return subprocess.Popen([sys.executable, TOP / "hunt/seeds", *map(str, words), "--resume"], stdout=subprocess.DEVNULL,
                            stderr=subprocess.PIPE)


def kill_and_resume(words, times, seconds, rng=None):
    """Starts the command with these words, kills it or some of its workers after some of the seconds, so many times; then lets it
    come to its end. Gives what it says on standard error, and how often the command itself was killed in its work."""
    rng, killed = rng or random.Random(1), 0
    for _ in range(times):
        command = resumed(words)
        if rng.random() < 0.5:
            time.sleep(rng.uniform(*seconds))
            kill_some_worker(command, rng)
        time.sleep(rng.uniform(*seconds))
        killed += command.poll() is None
        kill(command.pid)
        command.communicate()
    last = resumed(words)
    return last.communicate()[1].decode(), killed
