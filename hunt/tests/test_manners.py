"""Every command of hunt/ ends quietly when Ctrl-C comes or nobody reads what it says, and sees first whether it can write."""

import os
import signal
import subprocess
import tempfile
import time
import unittest
from pathlib import Path

import support
from lib.manners import NoOutput, try_output
from test_search import CAN_BUILD, NO_COMPILER

HUNT, RACE = support.TOP / "hunt", support.TOP / "examples/race"
LOGGED = [RACE / "race.elf", "4096", RACE / "expected/race.log"]
STOPPED, NOT_READ = 130, 141


def started(name, *words, **given):
    return subprocess.Popen([HUNT / name, *words], stdin=subprocess.DEVNULL, stderr=subprocess.PIPE, text=True,
                            start_new_session=True, **given)


def interrupted(process):
    """Ctrl-C for the command and all that it has started; status and standard error."""
    os.killpg(process.pid, signal.SIGINT)
    said = process.communicate(timeout=60)[1]
    return process.returncode, said


class Refused(unittest.TestCase):
    def test_a_full_disk(self):
        for words in ([], ["who", "counter"]):
            with open("/dev/full", "w") as full:
                process = started("trace", *LOGGED, *words, stdout=full)
                self.assertEqual(process.communicate(timeout=60)[1], "trace: No space left on device\n")
            self.assertEqual(process.returncode, 2)


class Interrupted(unittest.TestCase):
    def setUp(self):
        folder = tempfile.TemporaryDirectory()
        self.addCleanup(folder.cleanup)
        self.folder = Path(folder.name)
        os.mkfifo(self.folder / "begun")

    def test_while_the_log_is_walked(self):
        """The program that stands in for the walk says that it has begun, and then sleeps."""
        slow = self.folder / "slow"
        slow.write_text('#!/bin/sh\necho > "$(dirname "$0")/begun"\nexec sleep 60\n')
        slow.chmod(0o755)
        for name, words in (("trace", []), ("picture", []), ("gdb", []), ("shrink", ["--out", self.folder / "a.log"])):
            process = started(name, *LOGGED, *words, stdout=subprocess.DEVNULL, env=os.environ | {"DELOREAN": str(slow)})
            (self.folder / "begun").read_text()
            self.assertEqual(interrupted(process), (STOPPED, "%s: stopped\n" % name))

    def test_pack(self):
        process = started("pack", self.folder / "begun", self.folder / "a.log")
        with open(self.folder / "begun", "w"):
            self.assertEqual(interrupted(process), (STOPPED, "pack: stopped\n"))

    @unittest.skipUnless(CAN_BUILD, NO_COMPILER)
    def test_search(self):
        """It says what it has covered."""
        stack = HUNT / "examples/aba/mended.elf"
        process = started("search", stack, "8192", "--bad", "exit 0 != 0", "--out", self.folder / "a.log", stdout=subprocess.PIPE)
        first = process.stdout.readline()
        os.killpg(process.pid, signal.SIGINT)
        said, errors = process.communicate(timeout=60)
        self.assertEqual((process.returncode, errors), (STOPPED, ""))
        self.assertRegex(first + said, "^without a forced switch: done, .*\n"
                                       "(.*\n)*no order .* ends so, in [0-9]+ runs\n"
                                       "it was stopped with [12] forced: [0-9]+ runs? of them tried, the rest isn't covered\n$")
        self.assertFalse((self.folder / "a.log").exists())


@unittest.skipUnless(CAN_BUILD and support.can_walk(), support.NOT_BUILT)
class FromTheStart(unittest.TestCase):
    """Ctrl-C at any moment, also while Python starts and imports. Each command would take a minute."""

    MOMENTS = 0, 0.01, 0.03, 0.06, 0.11, 0.2  # seconds

    def setUp(self):
        folder = tempfile.TemporaryDirectory()
        self.addCleanup(folder.cleanup)
        self.folder = Path(folder.name)
        self.slow = self.folder / "slow"
        self.slow.write_text("#!/bin/sh\nexec sleep 60\n")
        self.slow.chmod(0o755)
        os.mkfifo(self.folder / "nothing.c")
        self.commands = {
            "ask": ["watch", *LOGGED, "counter"], "find": [self.folder / "nothing.c"], "gdb": LOGGED,
            "pack": [self.folder / "nothing.c", self.folder / "a.log"], "picture": LOGGED,
            "search": [HUNT / "examples/aba/mended.elf", "8192", "--bad", "hang", "--out", self.folder / "a.log"],
            "seeds": ["plan.toml", "--bad", "hang", "--seeds", "1-10000000", "--jobs", "1"], "shrink": [*LOGGED, "--out", self.folder / "a.log"], "trace": LOGGED,
            "../sdk/cc": [self.folder / "nothing.c", "-o", self.folder / "a.elf"]}

    def started(self, name, **more):
        """What they call is slow, except the tries of seeds, which come to their end after Ctrl-C."""
        slow = {} if name == "seeds" else {"DELOREAN": str(self.slow), "DELOREAN_CC": str(self.slow)}
        return started(name, *self.commands[name], stdout=subprocess.DEVNULL, env=os.environ | slow | more, cwd=RACE)

    @staticmethod
    def line_of(name):
        return "%s: stopped\n" % name.replace("../sdk/", "delorean-")

    def test_at_many_moments(self):
        """With the line; without one before Python is there, and where standard output says what was covered."""
        for moment in self.MOMENTS:
            processes = {name: self.started(name) for name in self.commands}
            time.sleep(moment)
            ended = [interrupted(process) for process in processes.values()]
            for name, (status, said) in zip(processes, ended):
                self.assertIn(said, (self.line_of(name), ""), (name, moment))
                self.assertIn(status, (STOPPED, -signal.SIGINT), (name, moment))

    def test_while_python_starts(self):
        """Before the first line of the command is read."""
        (self.folder / "sitecustomize.py").write_text("import time\nopen(%r, 'w').close()\ntime.sleep(0.3)\n"
                                                      % str(self.folder / "begun"))
        os.mkfifo(self.folder / "begun")
        for name in self.commands:
            process = self.started(name, PYTHONPATH=str(self.folder))
            (self.folder / "begun").read_text()
            self.assertEqual(interrupted(process), (STOPPED, self.line_of(name)))

    def test_all_commands_are_here(self):
        found = {path.name for path in HUNT.iterdir() if path.is_file() and os.access(path, os.X_OK)}
        self.assertEqual(found | {"../sdk/cc"}, set(self.commands))


class NotRead(unittest.TestCase):
    def status(self, name, *words):
        """Of a command whose output nobody reads, which must say nothing about it."""
        reader, writer = os.pipe()
        os.close(reader)
        process = started(name, *words, stdout=writer)
        os.close(writer)
        said = process.communicate(timeout=60)[1]
        self.assertEqual(said, "", name)
        return process.returncode

    @unittest.skipUnless(support.can_walk(), support.NOT_BUILT)
    def test_closed_pipe(self):
        for name, words in (("trace", ["lost"]), ("picture", []), ("picture", ["--text"]), ("gdb", [])):
            self.assertEqual(self.status(name, *LOGGED, *words), NOT_READ, name)

    @unittest.skipUnless(CAN_BUILD and support.can_walk(), NO_COMPILER)
    def test_closed_pipe_of_a_search(self):
        """Nothing goes on unseen, and nothing is written."""
        with tempfile.TemporaryDirectory() as folder:
            log = Path(folder) / "a.log"
            self.assertEqual(self.status("search", *LOGGED[:2], "--bad", "exit 0 != 0", "--out", log), NOT_READ)
            self.assertEqual(self.status("shrink", *LOGGED, "--out", log), NOT_READ)
            self.assertFalse(log.exists())


class Output(unittest.TestCase):
    def test_what_cannot_be_written(self):
        with tempfile.TemporaryDirectory() as scratch:
            folder = Path(scratch)
            (folder / "there").write_text("as it was")
            try_output(folder / "there")
            try_output(folder / "new")
            try_output("/dev/null")
            self.assertEqual((folder / "there").read_text(), "as it was")
            self.assertFalse((folder / "new").exists())
            for name, why in ((folder, "Is a directory"), (folder / "none/a.log", "there is no folder"),
                              (folder / "there/a.log", "there is no folder"), (folder / ("n" * 300), "File name too long")):
                with self.assertRaisesRegex(NoOutput, why):
                    try_output(name)

    @unittest.skipIf(os.geteuid() == 0, "files that may not be written, since root may write all")
    def test_what_may_not_be_written(self):
        with tempfile.TemporaryDirectory() as scratch:
            file = Path(scratch) / "a.log"
            file.touch(mode=0o400)
            with self.assertRaisesRegex(NoOutput, "Permission denied"):
                try_output(file)
            file.unlink()
            Path(scratch).chmod(0o500)
            with self.assertRaisesRegex(NoOutput, "nothing can be written in the folder"):
                try_output(file)
            Path(scratch).chmod(0o700)

    @unittest.skipUnless(CAN_BUILD, NO_COMPILER)
    def test_before_anything_is_done(self):
        for name, words in (("search", [*LOGGED[:2], "--bad", "exit 0 != 0"]), ("shrink", LOGGED)):
            ran = subprocess.run([HUNT / name, *words, "--out", "/no such folder/a.log"], capture_output=True, text=True)
            self.assertEqual((ran.returncode, ran.stdout), (2, ""))
            self.assertEqual(ran.stderr, "%s: /no such folder/a.log: there is no folder /no such folder\n" % name)


if __name__ == "__main__":
    unittest.main()
