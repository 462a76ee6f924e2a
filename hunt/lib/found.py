"""The folder in which hunt/find puts what it finds: `Folder(path)`. It has found.json, by which it is known again: a folder that
has files and isn't known is left as it is."""

import json
import os
from pathlib import Path
import shlex
import shutil

from .account import program
from .searching import Refused

MARK = '{"written by": "delorean-find"'
LOG, PICTURE, PLAN, RESULT = "found.log", "found.html", "replay.toml", "found.json"
REPLAYED = ("replayed.account", "replayed.report")

_PLAN = """\
# Written by delorean-find: replays the order that it has found. In this folder: %s run replay.toml
cores = %d
chunk = 32
buffer = 16
window = 1
signature = 1024
events = 0
report = "replayed.report"
[[sphere]]
image = "%s"
memory = %d
role = "replay"
log = "found.log"
account = "replayed.account"
"""


def plan_text(image, memory, folder, cores=4):
    """A plan that replays the log, given the image's name in the folder."""
    return _PLAN % (command_in(folder), cores, image, memory)


def command_in(folder):
    """What calls the proved program in a folder: its name if that is installed, else the path by which it was called here."""
    first, *more = program()
    if shutil.which("delorean") or "/" not in first:
        return "delorean" if shutil.which("delorean") else shlex.join([first, *more])
    path, here = os.path.realpath(first), os.path.realpath(folder)
    return shlex.join([path if os.path.commonpath([path, here]) == "/" else os.path.relpath(path, here), *more])


class Folder:
    def __init__(self, path):
        self.path = Path(path)

    def check(self):
        """Refused if the folder can't be used, or isn't one of hunt/find."""
        if self.path.exists() and not self.path.is_dir():
            raise Refused("%s is there, and isn't a folder" % self.path)
        if not self.path.parent.is_dir():
            raise Refused("%s: there is no such folder" % self.path.parent)
        if not os.access(self.path if self.path.exists() else self.path.parent, os.W_OK | os.X_OK):
            raise Refused("%s: nothing can be written there" % self.path)
        if self.path.is_dir() and any(self.path.iterdir()) and not self.is_known():
            raise Refused("%s has files that delorean-find hasn't written: give another folder by --out" % self.path)

    def is_known(self):
        try:
            return (self.path / RESULT).read_text(errors="replace").startswith(MARK)
        except OSError:
            return False

    def has_find(self):
        """Whether what an earlier find has found is there."""
        return self.is_known() and (self.path / LOG).is_file()

    def is_past(self, image, asked, switches):
        """Whether what is there is past, now that no order of the image fails with at most so many forced switches, or None: the same was
        asked of the program before it was changed."""
        earlier, name = json.loads((self.path / RESULT).read_text()), self.path / Path(image).name
        is_changed = name.is_file() and name.read_bytes() != Path(image).read_bytes()
        return is_changed and earlier.get("asked") == asked and (switches is None or switches >= earlier["found"]["forced"])

    def clear(self):
        """Takes away what an earlier find has left, and the folder if that was all. Else it stays known."""
        if not self.is_known():
            return
        names = json.loads((self.path / RESULT).read_text()).get("files", [])
        for name in {*names, LOG, PICTURE, PLAN, *REPLAYED, RESULT}:
            if Path(name).name == name:
                (self.path / name).unlink(missing_ok=True)
        if any(self.path.iterdir()):
            (self.path / RESULT).write_text(json.dumps({"written by": "delorean-find", "files": [RESULT]}) + "\n")
        else:
            self.path.rmdir()

    def write(self, image, files, result):
        """Copies the image, writes the files (by name, text or bytes), and the result as found.json."""
        try:
            self.path.mkdir(exist_ok=True)
            shutil.copyfile(image, self.path / Path(image).name)
            for name, data in files.items():
                (self.path / name).write_bytes(data if isinstance(data, bytes) else data.encode())
            told = {"written by": "delorean-find", **result, "files": [Path(image).name, *files, RESULT]}
            (self.path / RESULT).write_text(json.dumps(told, indent=None) + "\n")
        except OSError as error:
            raise Refused("%s: %s" % (error.filename, error.strerror)) from None
