"""Logs of the seeds with which the examples fail, recorded by the proved program."""

from collections import namedtuple
import functools
import re
import subprocess
import tempfile
from pathlib import Path

import support
from lib.account import program
from lib.image import read_image
from lib.logs import read_log
from lib.play import play

EXAMPLES = support.TOP / "hunt/examples"

# folder: of an example, with its plan. seeds: the first that don't end well. bad: what a bad end is. most: the forced switches
# that a smaller log may have, in which the end is the log's own.
Failing = namedtuple("Failing", "folder seeds bad most")
FAILING = [
    Failing(support.TOP / "examples/race", (3, 9, 51, 73), "exit 0 != 0", 4),
    Failing(EXAMPLES / "aba", (8, 10, 11, 15), "exit 0 != 0", 4),
    Failing(EXAMPLES / "sleep", (30, 39, 63, 68, 119, 139), "hang", 4),
    Failing(EXAMPLES / "once", (36, 51, 73), "exit 0 != 0", 1),
    Failing(EXAMPLES / "release", (3, 36, 55, 63), "exit 0 != 0", 2),
    Failing(EXAMPLES / "wake-up", (22, 82, 97), "exit 0 != 0", 3),
    Failing(EXAMPLES / "interrupt", (1, 2, 4, 6), "exit 0 != 0", 4),
    Failing(EXAMPLES / "no-second-look", (3, 27, 78, 147), "exit 0 != 0", 3),
    Failing(EXAMPLES / "below-zero", (3, 15, 27, 52), "fault", 3),
    Failing(EXAMPLES / "last-reader", (1, 2, 3, 5), "hang", 4),
]


def sphere_of(folder):
    """The image and the bytes of memory that the plan names."""
    text = (folder / "plan.toml").read_text()
    return folder / re.search(r'image = "(.*)"', text)[1], int(re.search(r"memory = (\d+)", text)[1])


@functools.cache
def recorded(folder, seed):
    """The log's bytes and the account, with this seed."""
    image, _ = sphere_of(folder)
    text = re.sub(r"(?m)^report = .*\n", "", (folder / "plan.toml").read_text())
    for what, value in (("seed", str(seed)), ("image", '"%s"' % image), ("log", '"a.log"'), ("account", '"a.txt"')):
        text = re.sub(r"(?m)^%s = .*$" % what, "%s = %s" % (what, value), text)
    with tempfile.TemporaryDirectory() as scratch:
        (Path(scratch) / "plan.toml").write_text(text)
        subprocess.run([*program(), "run", "plan.toml"], cwd=scratch, check=True, stdout=subprocess.DEVNULL)
        return (Path(scratch) / "a.log").read_bytes(), (Path(scratch) / "a.txt").read_bytes()


def gone_on(folder, log, rounds=200, steps=97):
    """How the interpreter in Python goes on from a log's end, each thread so many steps in turn: the threads' ends."""
    image, memory = sphere_of(folder)
    machine = play(read_image(image.read_bytes(), memory), read_log(log)).machine
    for _ in range(rounds):
        for k, thread in enumerate(machine.threads):
            if thread.live() and machine.run(k, steps) < steps:
                machine.serve(k)
            machine.end_commit(k)
    return [thread.status for thread in machine.threads]
