"""The front page's program has the bug that the page shows, its mended twin has none, and its log replays."""

import re
import shutil
import tempfile
import unittest
from pathlib import Path

from support import TOP, call, program

TEXT = (TOP / "README.md").read_text()


def blocks():
    """The page's indented blocks, each as its text."""
    found, lines = [], []
    for line in [*TEXT.splitlines(), "end"]:
        if line.startswith("    ") or (lines and not line):
            lines.append(line[4:])
        elif lines:
            found.append("\n".join(lines).rstrip() + "\n")
            lines = []
    return found


def shown(command):
    """What the page shows below a command, as a pattern: `..` is any lines, and counts, seconds and numbers of commits may differ."""
    text = next(block for block in blocks() if block.startswith(command + "\n"))[len(command) + 1:].lstrip("\n")
    return re.compile("".join(r"(?:.*\n)*" if line == ".." else loose(line) + r"\n" for line in text.splitlines()))


def loose(line):
    """A pattern of the line, in which these numbers are any, and so is the path of the program."""
    parts = re.split(r"((?<=commit )\d+|\d+(?= commits| runs| in \d)|\d+\.\d+(?= s))", line)
    text = "".join(r"[\d.]+" if place % 2 else re.escape(part) for place, part in enumerate(parts))
    return re.sub(r"(?<=\\&\\&\\ )\S+(?=\\ run)", r"\\S+", text)


class Front(unittest.TestCase):
    def setUp(self):
        scratch = tempfile.TemporaryDirectory()
        self.addCleanup(scratch.cleanup)
        self.folder = Path(scratch.name)
        shutil.copytree(TOP / "examples/account", self.folder / "examples/account", ignore=shutil.ignore_patterns("*.found"))

    def finds(self, source, status):
        done = call(TOP / "hunt/find", source, cwd=self.folder)
        self.assertEqual(done.returncode, status, done.stdout)
        self.assertTrue(shown("hunt/find " + source).fullmatch(done.stdout), done.stdout)

    def test_the_bug_and_its_log(self):
        self.finds("examples/account/account.c", 1)
        done = call(program(), "run", "replay.toml", cwd=self.folder / "examples/account/account.found")
        self.assertEqual(done.returncode, 0, done.stdout)
        self.assertIn("s 0 complete", done.stdout)

    def test_the_mended_one(self):
        self.finds("examples/account/mended.c", 0)

    def test_the_program_is_the_one_shown(self):
        self.assertIn((TOP / "examples/account/account.c").read_text(), blocks())


if __name__ == "__main__":
    unittest.main()
