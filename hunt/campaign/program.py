"""The proved program, called with as little as can be: `find_program()` gives the words that run it, and a Runner calls it.

A try takes a millisecond or two, so neither a shell nor a Python is started for it, and what it writes goes to memory."""

from collections import namedtuple
import fcntl
import hashlib
import os
from pathlib import Path
import shutil
import subprocess
import sys
import tempfile

from lib.account import TOP, program
from lib.searching import Refused

PREFIX = "delorean-seeds-"


class Failed(Exception):
    """The program didn't run a plan to its end; args: what it said."""


class Ran(namedtuple("Ran", "status said")):
    """status: as the program ends, or the negative number of a signal. said: its standard output; None if the status is 0."""

    def told(self):
        """What a failure is, in words."""
        return self.said or ("the program was ended by signal %d" % -self.status if self.status < 0
                             else "the program ended with status %d" % self.status)


def explained(ran, *words):
    """What a failure of the program, called with these words, is, and what explain/ finds of it; a bundle on another machine hasn't
    got that."""
    sys.path.append(str(TOP))
    try:
        from explain.explaining import explain
    except ImportError:
        return ran.told()
    finally:
        sys.path.pop()
    text = explain(ran.status, list(words), ran.said) if ran.status > 0 else None
    return "%s: %s" % (ran.told(), text) if text else ran.told()


def find_program():
    """The words that run the program. bin/delorean may be a script, which builds the program if need be; then it is asked for the
    program's file, so that a try starts no shell."""
    words = program()
    file = shutil.which(words[0])
    if file is None:
        raise Refused("%s isn't there" % words[0])
    if Path(file).resolve() != (TOP / "bin" / "delorean").resolve() or not is_script(file):
        return [str(Path(file).resolve()), *words[1:]]
    asked = subprocess.run([file, "--path"], stdin=subprocess.DEVNULL, stdout=subprocess.PIPE, text=True)
    if asked.returncode != 0:
        raise Refused("bin/delorean doesn't find the program")
    return [asked.stdout.rstrip("\n")]


def is_script(file):
    with open(file, "rb") as opened:
        return opened.read(2) == b"#!"


def sum_of_file(name):
    try:
        return hashlib.sha256(Path(name).read_bytes()).hexdigest()
    except OSError as error:
        raise Refused("%s: %s" % (error.filename, error.strerror)) from None


class Runner:
    """Runs plans in a folder of its own. A run that ends with 0 or 1 has written all its files anew."""

    def __init__(self, words, folder):
        self.words, self.folder = words, str(folder)
        said = os.open(self.path("said"), os.O_WRONLY | os.O_CREAT | os.O_CLOEXEC, 0o600)
        self.actions = [(os.POSIX_SPAWN_OPEN, 0, os.devnull, os.O_RDONLY, 0), (os.POSIX_SPAWN_DUP2, said, 1)]
        self.said, self.environment = said, dict(os.environb)

    def path(self, name):
        return "%s/%s" % (self.folder, name)

    def call(self, *words):
        """A Ran."""
        os.ftruncate(self.said, 0)
        os.lseek(self.said, 0, os.SEEK_SET)
        argv = [*self.words, *words]
        process = os.posix_spawn(argv[0], argv, self.environment, file_actions=self.actions)
        status = os.waitstatus_to_exitcode(os.waitpid(process, 0)[1])
        return Ran(status, None if status == 0 else self.read("said").decode("utf-8", "replace").strip())

    def run(self, text):
        """A Ran of the plan with this text."""
        plan = self.path("plan")
        with open(plan, "w") as file:
            file.write(text)
        return self.call("run", plan)

    def walk(self, image, memory, log):
        """The account of a log's walk."""
        ran = self.call("walk", "--", image, str(memory), log)
        if ran.status not in (0, 1):
            raise Failed(ran.told())
        return self.read("said")

    def walk_bytes(self, image, memory, data):
        """The account of the walk of a log's bytes."""
        with open(self.path("walked"), "wb") as file:
            file.write(data)
        return self.walk(image, memory, self.path("walked"))

    def read(self, name):
        with open(self.path(name), "rb") as file:
            return file.read()


# ---------------------------------------------------------------- folders for what is soon gone


class Scratch:
    """A folder in memory, if the system has one, which is gone at the end. A lock tells that it is in use: those of commands
    that were killed are taken away by the next one."""

    def __init__(self):
        base = "/dev/shm" if os.access("/dev/shm", os.W_OK | os.X_OK) else tempfile.gettempdir()
        take_away_left(base)
        while not self.make(base):
            os.close(self.lock)

    def make(self, base):
        """Whether a new folder is locked before another command has taken it away."""
        self.folder = tempfile.mkdtemp(prefix=PREFIX, dir=base)
        self.lock = os.open(self.folder, os.O_RDONLY)
        fcntl.flock(self.lock, fcntl.LOCK_EX)
        return os.path.isdir(self.folder)

    def close(self):
        shutil.rmtree(self.folder, ignore_errors=True)
        os.close(self.lock)


def take_away_left(base):
    for folder in Path(base).glob(PREFIX + "*"):
        try:
            lock = os.open(folder, os.O_RDONLY | os.O_NOFOLLOW)
        except OSError:
            continue
        try:
            fcntl.flock(lock, fcntl.LOCK_EX | fcntl.LOCK_NB)
            shutil.rmtree(folder, ignore_errors=True)
        except OSError:
            pass  # it is in use
        finally:
            os.close(lock)
