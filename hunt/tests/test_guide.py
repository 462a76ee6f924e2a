"""The commands of the guide and of races.md say what these show. A line `..` means some lines, or none."""

import importlib.machinery
import importlib.util
import re
import unittest

import support
from lib.account import compare
from lib.image import read_image
from lib.logs import read_log
from lib.play import play
from lib.trace import Trace, open_trace

try:
    import elftools  # noqa: F401

    HAS_LINES = True
except ImportError:
    HAS_LINES = False

NO_LINES = "source lines, since pyelftools isn't there: the guide's lines are compared without them"


def command(name):
    """A command of hunt/ as a module."""
    loader = importlib.machinery.SourceFileLoader("hunt_" + name, str(support.TOP / "hunt" / name))
    module = importlib.util.module_from_spec(importlib.util.spec_from_loader(loader.name, loader))
    loader.exec_module(module)
    return module


def shown(text):
    """For each `$ ../trace ..` in the guide: the folder, its words, and the lines after it."""
    folder, found = None, []
    for line in text.splitlines():
        named = re.match(r"In `((?:hunt/)?examples/[\w-]+)`", line)
        if named:
            folder = support.TOP / named.group(1)
        if re.match(r"    \$ \S*/trace ", line) and folder:
            found.append((folder, line.split()[2:], []))
            is_open = True
        elif not line.startswith("    "):
            is_open = False
        elif found and is_open:
            found[-1][2].append(line[4:])
    return found


def without_lines(text):
    """A line without source lines and addresses of code, and with single spaces."""
    text = re.sub(r"(\w+), (\w+\.\w+:\d+|[0-9A-F]{8})", r"\1", text)
    if not HAS_LINES:  # nor are parts of variables known
        text = re.sub(r"\b(blocks|room|results)(\[\d\]|\.[a-z]+|\+0x[0-9A-F]+)+", r"\1", text)
    return re.sub(r" +", " ", re.sub(r"\b(\w+) to \1\b", r"\1", text)).strip()


def pattern(lines):
    return re.compile("".join(r"(?:.*\n)*" if line.strip() == ".." else re.escape(line) + r"\n" for line in lines))


class Guide(unittest.TestCase):
    @classmethod
    def setUpClass(cls):
        cls.trace = command("trace")
        cls.text = "\n".join((support.TOP / "hunt" / name).read_text() for name in ("README.md", "races.md"))

    def say(self, folder, words):
        image, memory, log, *rest = words
        recording = next(r for r in support.recorded() if r.log == folder / "expected" / log)
        self.assertEqual((recording.image, recording.memory), (folder / image, int(memory)))
        loaded, read = read_image(recording.image.read_bytes(), recording.memory), read_log(recording.log.read_bytes())
        played = play(loaded, read)
        compare(played, recording.account.read_bytes())
        if rest == ["waits"]:
            return list(self.trace.answer(open_trace(recording.image, recording.memory, recording.log), rest))
        traced = Trace(loaded, read, played)
        if "--atomic" in rest:
            *rest, _, named = rest
            traced.atomic = self.trace.words_of(traced, named)
        return list(self.trace.answer(traced, rest))

    def compare_all(self, changed):
        found = shown(self.text)
        self.assertGreater(len(found), 10)
        for folder, words, lines in found:
            if words[-1] == "waits" and not (support.can_walk() and HAS_LINES):
                continue  # it walks, and reads call frames
            with self.subTest(" ".join(words)):
                said = "".join(changed(line) + "\n" for line in self.say(folder, words))
                self.assertRegex(said, re.compile(r"\A" + pattern(map(changed, lines)).pattern + r"\Z"))

    def test_what_it_shows(self):
        self.compare_all(without_lines)

    @unittest.skipUnless(HAS_LINES, NO_LINES)
    def test_what_it_shows_with_source_lines(self):
        self.compare_all(str.rstrip)


if __name__ == "__main__":
    unittest.main()
