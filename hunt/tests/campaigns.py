"""What the tests of campaigns share: the command as it is called, a folder for each test, and what a campaign has kept."""

import contextlib
import importlib.machinery
import importlib.util
import io
import os
import re
import shutil
import signal
import tempfile
import unittest
from pathlib import Path

import support
from campaign.store import NAME, Store

RACE, SLEEP = support.TOP / "examples/race", support.TOP / "hunt/examples/sleep"
IMAGES = support.TOP / "hunt/tests/images"
SEEDS = support.TOP / "hunt/seeds"
COUNT_IS_WRONG = "exit 0 != 0"
HAS_COMPILER = shutil.which(os.environ.get("CC", "cc")) is not None
NO_COMPILER = "hangs and bugs, since there is no C compiler"
NOT_BUILT = "campaigns, since the proved program isn't built"


def load(name):
    """A command of hunt/ as a module."""
    loader = importlib.machinery.SourceFileLoader("hunt_" + name, str(support.TOP / "hunt" / name))
    module = importlib.util.module_from_spec(importlib.util.spec_from_loader(loader.name, loader))
    loader.exec_module(module)
    return module


def said(*words):
    """What the command ends with, and says on both outputs."""
    out = io.StringIO()
    main = load("seeds").main
    with contextlib.redirect_stdout(out), contextlib.redirect_stderr(out):
        status = main([str(word) for word in words])
    return status, out.getvalue()


def rows_in(folder):
    """Setting, seed, outcome, events, commits, threads and console of each try."""
    with contextlib.closing(Store(str(Path(folder) / NAME))) as store:
        return list(store.base.execute("select * from tries order by seed, setting"))


class Scratch(unittest.TestCase):
    def setUp(self):
        folder = tempfile.TemporaryDirectory()
        self.addCleanup(folder.cleanup)
        self.folder = Path(folder.name)
        self.addCleanup(os.chdir, os.getcwd())
        for number in signal.SIGINT, signal.SIGTERM:
            self.addCleanup(signal.signal, number, signal.getsignal(number))
        os.chdir(self.folder)

    def copy(self, *files, **changes):
        """Copies of files, the plan among them with other values."""
        for file in files:
            shutil.copy(file, self.folder)
        text = Path("plan.toml").read_text()
        for key, value in changes.items():
            text = re.sub("^%s = .*" % key, "%s = %s" % (key, value), text, flags=re.M)
        Path("plan.toml").write_text(text)
