"""The examples as the tests take them, and whether the proved program is there."""

import functools
import os
import shutil
import subprocess
import sys
import tomllib
from collections import namedtuple
from pathlib import Path

TOP = Path(__file__).resolve().parent.parent.parent
sys.path.insert(0, str(TOP / "hunt"))

from lib.image import read_image  # noqa: E402
from lib.logs import read_log  # noqa: E402
from lib.play import play  # noqa: E402
from lib.trace import Trace  # noqa: E402

# A log with the image and memory that it is of, and its account: files.
Recorded = namedtuple("Recorded", "name image memory log account")


def _there(folder, name):
    return next((path for path in (folder / name, folder / "expected" / name) if path.is_file()), None)


def recorded():
    """Every sphere of a plan in an example whose log is there, and its account of the whole log."""
    out = []
    for plan in sorted([*TOP.glob("examples/*/*.toml"), *TOP.glob("hunt/examples/*/*.toml")]):
        for sphere in tomllib.loads(plan.read_text())["sphere"]:
            files = [_there(plan.parent, sphere.get(key, "")) for key in ("image", "log", "account")]
            if all(files) and not {"from", "to", "epoch"} & sphere.keys():
                name = "%s, %s" % (plan.parent.name, plan.name)
                out.append(Recorded(name, files[0], sphere["memory"], files[1], files[2]))
    return out


def example(name):
    """The first recording of the plan so called, as `race, plan.toml`."""
    return next(r for r in recorded() if r.name == name)


def played(r):
    image = read_image(r.image.read_bytes(), r.memory)
    return image, read_log(r.log.read_bytes()), play(image, read_log(r.log.read_bytes()))


def traced(name):
    image, log, p = played(example(name))
    return Trace(image, log, p)


@functools.cache
def can_walk():
    """Whether the proved program can be called without being built first."""
    said = subprocess.check_output([TOP / "bin/delorean", "--version"], text=True)
    return "\nprogram none" not in said


def tool(name):
    """The path of a program that isn't this project's, or None if it isn't there, or if only tests without such are to run."""
    return None if os.environ.get("HUNT_TOOLS") == "none" else shutil.which(name)


NOT_BUILT = "the walks of the proved program, which isn't built: stored accounts are taken instead"
