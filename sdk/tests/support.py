"""What the tests of the SDK share: compiling, running on the machine, searching all orders, and the host's compiler beside them. Each
call works in a folder of its own, so that several may go on at once."""

from collections import namedtuple
from concurrent.futures import ThreadPoolExecutor
from pathlib import Path
import os
import re
import shutil
import subprocess
import tempfile
import unittest

TOP = Path(__file__).resolve().parent.parent.parent
SDK = TOP / "sdk"
PROGRAMS = SDK / "tests" / "programs"
SEARCHED = SDK / "tests" / "searched"
CC = SDK / "cc"
BAD = ["exit any != 0", "fault", "hang 0"]

Image = namedtuple("Image", "status text memory")    # of delorean-cc: its status, what it said, and the memory that a plan needs
Run = namedtuple("Run", "code console states")       # code: thread 0's; states: of all threads, as the account has them
Found = namedtuple("Found", "status text")           # status: 0 if an order ends badly, 1 if none does


class Failed(Exception):
    """args: what a command said that should have gone well."""


def program():
    """The built program: the one that is named by DELOREAN, or that of this repository."""
    return os.environ.get("DELOREAN") or str(TOP / "bin" / "delorean")


def call(*words, env=None, **more):
    return subprocess.run([str(word) for word in words], stdout=subprocess.PIPE, stderr=subprocess.STDOUT, text=True, errors="replace",
                          env={**os.environ, "DELOREAN": program(), **(env or {})}, **more)


def called(*words):
    done = call(*words)
    if done.returncode:
        raise Failed(done.stdout)
    return done.stdout


def compiled(folder, *words):
    """Compiles to a.elf and a.toml in the folder."""
    done = call(CC, *words, "-o", Path(folder) / "a.elf", "--plan", Path(folder) / "a.toml")
    memory = re.search(r"memory = (\d+)", done.stdout)
    return Image(done.returncode, done.stdout, int(memory[1]) if memory else None)


def image(folder, *words):
    made = compiled(folder, *words)
    if made.status:
        raise Failed(made.text)
    return made


def with_lines(text, lines):
    """A plan's text with these lines changed or put first."""
    for key, value in lines.items():
        line = "%s = %s" % (key, value)
        text = re.sub("^%s = .*" % key, line, text, flags=re.M) if re.search("^%s = " % key, text, re.M) else line + "\n" + text
    return text


def ran(*words, **lines):
    """Compiles a program and runs it on the machine, by its plan with these lines changed."""
    with tempfile.TemporaryDirectory() as folder:
        image(folder, *words)
        plan = Path(folder) / "a.toml"
        text = plan.read_text()
        drawn = {"events": 2000000} if "\nevents" in text else {}
        plan.write_text(with_lines(text, {"chunk": 64, **drawn, **lines}))
        called(program(), "run", plan)
        states = re.findall(r"^t \d+ \w+ (\S+)", (Path(folder) / "a.txt").read_text(), re.M)
        code = int(states[0].partition(":")[2]) if states[0].startswith("ended") else states[0]
        return Run(code, (Path(folder) / "a.console").read_bytes().decode("latin-1"), states)


def searched(*words, seconds=60, bad=BAD, more=()):
    """Compiles a program and searches its orders for one that ends badly."""
    with tempfile.TemporaryDirectory() as folder:
        made = image(folder, *words)
        conditions = [word for condition in bad for word in ("--bad", condition)]
        done = call(TOP / "hunt" / "search", Path(folder) / "a.elf", made.memory, "--out", Path(folder) / "found.log", *conditions, *more,
                    "--switches", 100, "--seconds", seconds)
        if done.returncode > 1:
            raise Failed(done.stdout)
        return Found(done.returncode, done.stdout)


def on_host(source, *words, arguments=(), **more):
    """What the same source prints on the host, compiled by gcc -pthread."""
    with tempfile.TemporaryDirectory() as folder:
        called("gcc", "-w", "-O1", "-pthread", source, "-o", Path(folder) / "host", "-lm", *words)
        return call(Path(folder) / "host", *arguments, timeout=20, **more)


HOST = unittest.skipUnless(shutil.which("gcc"), "no gcc for the host: what programs print there isn't compared")


def results(cases, work):
    """The work's results for the cases, in their order, or what it raised; as many at once as there are processors."""
    def guarded(case):
        try:
            return work(case)
        except (Failed, OSError, ValueError) as error:
            return error

    with ThreadPoolExecutor(min(4, os.cpu_count() or 1)) as pool:
        return list(pool.map(guarded, cases))


class Case(unittest.TestCase):
    def each(self, cases, work, check):
        """Does the work for each case, and checks what came of it: check(case, result)."""
        for case, result in zip(cases, results(cases, work)):
            with self.subTest(case=case):
                if isinstance(result, Exception):
                    self.fail(str(result))
                check(case, result)

    def assertClear(self, found):
        """All orders, however many switches they have."""
        self.assertEqual(found.status, 1, found.text)
        self.assertIn("no order ends so, with however many switches", found.text)
        self.assertNotIn("limit", found.text)
