"""The commands that search.md shows say what it shows. A line `..` is some lines or none; seconds may be others."""

import re
import shutil
import subprocess
import tempfile
import unittest
from pathlib import Path

import support
from lib.account import program
from test_search import CAN_BUILD, NO_COMPILER

GUIDE = support.TOP / "hunt/search.md"
SHOWN = re.compile(r"    (?:\$ )?((?:\S*/(?:search|shrink|pack|trace)|delorean) .*)")


def transcripts(text):
    """(folder, [(command, lines)]) for each `In ...` of the guide."""
    found = []
    for line in text.splitlines():
        stands = re.search(r"[Ii]n `((?:hunt/)?examples/[\w-]+)`", line)
        if stands:
            found.append((support.TOP / stands[1], []))
        command = SHOWN.fullmatch(line)
        if command:
            found[-1][1].append((command[1], []))
        elif line.startswith("    ") and found and found[-1][1]:
            found[-1][1][-1][1].append(line[4:])
    return found


def pattern(lines):
    """What a text must match, whatever the seconds."""
    parts = ["(?:.*\n)*?" if line == ".." else re.sub(r"[0-9]+\\\.[0-9]+\\ s", r"[0-9.]+ s", re.escape(line)) + " *\n"
             for line in lines]
    return "".join(parts)


@unittest.skipUnless(CAN_BUILD, NO_COMPILER)
@unittest.skipUnless(support.can_walk(), support.NOT_BUILT)
class Guide(unittest.TestCase):
    def test_commands(self):
        shown = transcripts(GUIDE.read_text())
        self.assertGreater(sum(len(commands) for _, commands in shown), 8)
        for folder, commands in shown:
            with tempfile.TemporaryDirectory() as scratch:
                copy = Path(scratch) / "a/b"
                shutil.copytree(folder, copy)
                for file in (folder / "expected").glob("*.log"):
                    shutil.copy(file, copy)
                for command, lines in commands:
                    with self.subTest(command):
                        self.runs(command, lines, copy)

    def runs(self, command, lines, copy):
        name = re.match(r"\S*/(search|shrink|pack|trace) ", command)
        words = re.sub(r"^\S+", str(support.TOP / "hunt" / name[1]), command) if name else command
        script = 'delorean() { %s "$@"; }\n%s\n' % (" ".join(program()), words)
        ran = subprocess.run(["sh", "-c", script], cwd=copy, capture_output=True, text=True)
        if name and ".c:" in "".join(lines) and ".c:" not in ran.stdout:
            return  # source lines are there only with pyelftools; the other guide's test compares with and without them
        self.assertRegex(ran.stdout + ran.stderr, "^" + pattern(lines) + "$")


if __name__ == "__main__":
    unittest.main()
