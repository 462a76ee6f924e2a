"""hunt/picture has a box for each commit of the account, with its loads, and escapes odd names; --text has the same marks."""

import base64
import html.parser
import json
import os
from array import array
from pathlib import Path
import subprocess
import tempfile
import unittest

import odd
import support
from lib import isa
from lib.logs import DMA
from lib.trace import Trace
from view.findings import findings
from view.page import page
from view.picture import ENTRIES, Picture
from view.text import rows

KERNEL_LOAD = [words for _, words in ENTRIES].index("kernel load")


def pictures():
    """Of each recording: it, its trace, its picture."""
    for r in support.recorded():
        image, log, played = support.played(r)
        trace = Trace(image, log, played)
        yield r, trace, Picture(trace, (), findings(trace))


def told(account):
    """Of each commit of an account: its actor, its size, its loads."""
    commits = []
    for words in map(str.split, account.read_text().splitlines()):
        if words[0] == "c":
            commits.append((int(words[2]), int(words[3]), []))
        elif words[0] == "l":
            commits[-1][2].append((int(words[1], 16), int(words[2], 16)))
    return commits


class Tags(html.parser.HTMLParser):
    """The tags of a page, in their order, and the text in each that has an id, and in its title."""

    def __init__(self, text):
        super().__init__(convert_charrefs=True)
        self.tags, self.inside, self.texts = [], None, {}
        self.feed(text)
        self.close()

    def handle_starttag(self, tag, attributes):
        self.tags.append((tag, tuple(attributes)))
        self.inside = dict(attributes).get("id", tag)

    def handle_endtag(self, tag):
        self.inside = None

    def handle_data(self, data):
        self.texts[self.inside] = self.texts.get(self.inside, "") + data


TEMPLATE = Tags((support.TOP / "hunt/view/page.html").read_text())


def column(model, name, code):
    return array(code, base64.b64decode(model[name]))


class Pages(unittest.TestCase):
    def model_of(self, text):
        """The run that a page has; all its tags are the template's."""
        tags = Tags(text)
        self.assertEqual(tags.tags, TEMPLATE.tags)
        self.assertNotRegex(tags.texts["run"], "[<>&]")
        return json.loads(tags.texts["run"]), tags.texts["title"]

    def test_boxes_and_loads_are_the_account_s(self):
        for r, trace, picture in pictures():
            with self.subTest(r.name):
                model, _ = self.model_of(page(picture, r.name))
                self.compare(model, told(r.account), trace)

    def compare(self, model, commits, trace):
        lane, size, first = column(model, "lane", "B"), column(model, "size", "I"), column(model, "first", "I")
        word, value, entry = column(model, "word", "I"), column(model, "value", "I"), column(model, "entry", "B")
        self.assertEqual(len(lane), len(commits))
        for i, (actor, instructions, loads) in enumerate(commits):
            is_dma = trace.commits[i].actor == DMA
            self.assertEqual(model["lanes"][lane[i]].split(",")[0], "dma" if is_dma else "thread %d" % actor)
            self.assertEqual(size[i], instructions)
            mine = [e for e in range(first[i], first[i + 1]) if ENTRIES[entry[e] & 15][0] == "l" and entry[e] & 15 != KERNEL_LOAD]
            self.assertEqual([(model["words"][word[e]][0] + (entry[e] >> 4 & 3), value[e]) for e in mine], loads)
        stores = sum(a.kind in isa.STORES or a.kind == isa.CONSOLE for a in trace.accesses)
        self.assertEqual(sum(ENTRIES[e & 15][0] == "s" for e in entry), stores)

    def test_what_is_red_is_a_load_and_stores_of_one_word(self):
        seen = 0
        for r, trace, picture in pictures():
            for finding in picture.found:
                seen += 1
                letters = [picture.letter(e) for e in finding.accesses]
                self.assertEqual((letters[0], set(letters[1:])), ("l", {"s"}), r.name)
                self.assertEqual(len({picture.word[e] for e in finding.accesses}), 1)
                self.assertEqual(finding.accesses, sorted(finding.accesses))
        self.assertGreater(seen, 8)

    def test_a_page_of_a_part_has_the_chosen_words_whole(self):
        image, log, played = support.played(support.example("aba, plan.toml"))
        trace = Trace(image, log, played)
        top, found = trace.names.word("top"), findings(trace)
        whole, part = Picture(trace, (top,), found), Picture(trace, (top,), found, most=150)
        self.assertEqual((whole.is_partial, part.is_partial), (False, True))
        self.assertLess(len(part.word), len(whole.word))
        for i in range(len(trace.commits)):
            marks = [[(p.value[e], p.letter(e), n) for e, n in p.marks(i)] for p in (whole, part)]
            self.assertEqual(*marks)
        self.assertEqual([f.text for f in part.found], [f.text for f in whole.found])
        self.assertEqual([[part.value[e] for e in f.accesses] for f in part.found], [[whole.value[e] for e in f.accesses] for f in whole.found])

    def test_odd_names_are_escaped(self):
        race = support.example("race, plan.toml")
        with tempfile.TemporaryDirectory() as folder:
            image = odd.odd_image(Path(folder))
            command = [support.TOP / "hunt/picture", image, str(race.memory), race.log, "--account", race.account]
            model, title = self.model_of(subprocess.run(command, stdout=subprocess.PIPE, check=True).stdout.decode())
            text = subprocess.run([*command, "--text"], stdout=subprocess.PIPE, check=True).stdout.decode()
        self.assertEqual(title, odd.TITLE)
        self.assertLessEqual(odd.SHOWN, {name for _, name in model["words"]})
        self.assertTrue(any(odd.FUNCTION in line for line in model["lines"]))
        self.assertTrue(all(line.isprintable() for line in text.split("\n")))


class Rows(unittest.TestCase):
    def test_each_commit_has_its_marks(self):
        for r, trace, picture in pictures():
            with self.subTest(r.name):
                lines = list(rows(picture, 0, len(trace.commits), 200))
                body = [line for line in lines[1:] if not line.startswith("! ")]
                self.assertEqual(len(lines) - 1 - len(body), len(picture.found))
                self.assertEqual([int(line[:6]) for line in body if line[:6].strip()], list(range(len(trace.commits))))
                names = {picture.words[w][1] or "%08X" % picture.words[w][0] for w in picture.chosen}
                marks = [word for line in body for word in line.split() if "=" in word and word.split("=")[0].rstrip(":!") in names]
                self.assertEqual(len(marks), sum(len(picture.marks(i)) for i in range(len(trace.commits))))

    def test_the_lines_of_the_race(self):
        """The commits that the front page shows: two loads of 7, and the 8 that goes over the 13."""
        image, log, played = support.played(support.example("race, plan.toml"))
        trace = Trace(image, log, played)
        picture = Picture(trace, (trace.names.word("counter"),), findings(trace))
        lines = [" ".join(line.split()) for line in rows(picture, 14, 22, 160)]
        self.assertIn("14 [15] counter=6<13 counter:=7 counter=7", lines)
        self.assertIn("16 [3] counter=7<14!", lines)
        self.assertTrue(any(line.startswith("22 [16] counter:=8! counter=8") for line in lines), lines)

    def test_the_guide(self):
        """The rows of hunt/picture.md are those that it prints."""
        race, shown = support.example("race, plan.toml"), []
        for line in (support.TOP / "hunt/picture.md").read_text().split("\n"):
            if line.startswith("    $ "):
                command = line.split()[2:]
            elif line.startswith("    ") and not line.startswith("    cd ") and "> race.html" not in line:
                shown.append(line[4:])
        words = [support.TOP / "hunt/picture", race.image, str(race.memory), race.log, "--account", race.account, *command[3:]]
        environment = dict(os.environ, COLUMNS="79")
        said = subprocess.run(words, stdout=subprocess.PIPE, text=True, check=True, env=environment).stdout.split("\n")
        self.assertGreater(len(shown), 10)
        rest = iter(said)
        for line in shown:
            begins = line.removesuffix(" ..")
            self.assertTrue(line == ".." or any(begins == other if begins == line else other.startswith(begins) for other in rest), line)


if __name__ == "__main__":
    unittest.main()
