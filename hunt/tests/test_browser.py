"""A page of hunt/picture in Chromium: what is drawn, what the keys and the pointer do, odd names, 10^5 commits."""

from array import array
from pathlib import Path
import shutil
import tempfile
import unittest

import odd
import support
from browser import Browser
from lib.trace import Trace
from view.findings import findings
from view.page import page
from view.picture import Picture
from test_picture import pictures

PROGRAM = support.tool("chromium")
PARTS = ("lane", "kind", "size", "note", "ran"), ("word", "value", "entry", "at", "width", "place")  # of a commit, of an entry


def repeated(picture, commits):
    """The picture with so many commits: its own, over and over."""
    mine = len(picture.lane)
    times, each, first = commits // mine + 1, len(picture.word), picture.first.tolist()
    for name in PARTS[0]:
        setattr(picture, name, (getattr(picture, name) * times)[:commits])
    picture.first = array("I", [each * (i // mine) + first[i % mine] for i in range(commits + 1)])
    for name in PARTS[1]:
        setattr(picture, name, (getattr(picture, name) * times)[: picture.first[-1]])
    return picture


def short_pictures():
    return (each for each in pictures() if 0 < len(each[1].commits) < 100)


@unittest.skipUnless(PROGRAM, "pages in a browser (chromium; --all asks for it)")
class Shown(unittest.TestCase):
    """All recordings for what is drawn; those of fewer than a hundred commits for keys and pointer."""

    @classmethod
    def setUpClass(cls):
        cls.browser, cls.folder = Browser(PROGRAM), Path(tempfile.mkdtemp())

    @classmethod
    def tearDownClass(cls):
        cls.browser.close()
        shutil.rmtree(cls.folder)

    def open(self, picture, title):
        path = self.folder / "page.html"
        path.write_text(page(picture, title), encoding="utf-8")
        self.browser.open(path)
        self.assertEqual(self.browser.complaints(), [])

    def test_boxes_and_marks_are_all_drawn(self):
        for r, trace, picture in pictures():
            with self.subTest(r.name):
                self.open(picture, r.name)
                marks = [mark for i in range(len(trace.commits)) for mark in picture.marks(i)]
                red = {e for finding in picture.found for e in finding.accesses}
                self.browser.key("0")
                drawn = self.browser.tell("drawn")
                self.assertEqual((drawn["boxes"], drawn["marks"], drawn["accesses"]),
                                 (len(trace.commits), len(marks), sum(count for _, count in marks)))
                self.assertEqual(drawn["red"], len(red))

    def test_windows_have_the_boxes_and_arrows_of_all(self):
        """The window moved from end to end at reading size: each box is drawn, and an arrow to each load of what a marked store
        left."""
        for r, trace, picture in short_pictures():
            with self.subTest(r.name):
                self.open(picture, r.name)
                seen = self.browser.tell("""(() => { const boxes = new Set(), arrows = new Set();
                    const plain = [box, arrow];
                    box = (kind, left, y, wide, c) => { boxes.add(c); plain[0](kind, left, y, wide, c); };
                    arrow = (from, to, ink, ...rest) => { if (ink !== colour.red) arrows.add(to); plain[1](from, to, ink, ...rest); };
                    for (view.per = near, view.from = 0; ; view.from += 5) { const asked = view.from; drawNow(); if (view.from < asked) break; }
                    [box, arrow] = plain;
                    return [boxes.size, arrows.size]; })()""")
                found, chosen = picture.found_by(), set(picture.chosen)
                marks = [e for i in range(len(trace.commits)) for e, _ in picture.marks(i)]
                wanted = sum(found[e] is not None and picture.word[e] in chosen for e in marks)
                self.assertEqual(seen, [len(trace.commits), wanted])

    def test_keys_go_from_access_to_access(self):
        for r, trace, picture in short_pictures():
            with self.subTest(r.name):
                self.open(picture, r.name)
                places = [[i, picture.value[e]] for i in range(len(trace.commits)) for e, _ in picture.marks(i)][:8]
                self.browser.key("Escape")
                self.browser.key("Home")
                there = [self.step("n") for _ in places]
                back = [self.step("p") for _ in places[1:]]
                self.assertEqual(there, places)
                self.assertEqual(back, places[-2::-1])

    def step(self, key):
        self.browser.key(key)
        commit, value, lines = self.browser.tell(
            "[commitOf[markAt[selected]], valueOf[markAt[selected]], at('detail').textContent]")
        self.assertTrue(lines.startswith("commit %d " % commit), lines)
        return [commit, value]

    def test_pointing_at_a_box_shows_its_lines(self):
        for r, trace, picture in short_pictures():
            with self.subTest(r.name):
                self.open(picture, r.name)
                self.browser.key("Escape")
                self.browser.tell("view.per = near")
                self.browser.key("Home")
                for commit in range(min(3, len(trace.commits))):
                    self.browser.tell("revealLane(lanes[laneOf[%d]])" % commit)  # of many lanes some are below what is shown
                    self.browser.settle()
                    self.browser.point(*self.browser.tell(
                        "[x(slotAt[%d]) + 4, lanes[laneOf[%d]].y + 5 + main.getBoundingClientRect().top - at('scroll').scrollTop]"
                        % (commit, commit)))
                    shown = self.browser.tell("[at('tip').style.display, at('tip').textContent]")
                    self.assertEqual(shown[0], "block")
                    self.assertTrue(shown[1].startswith("commit %d " % commit), shown)

    def test_odd_names_are_text(self):
        race = support.example("race, plan.toml")
        image = odd.odd_image(self.folder)
        _, log, played = support.played(race._replace(image=image))
        trace = Trace(support.played(race._replace(image=image))[0], log, played)
        self.open(Picture(trace, (), findings(trace)), odd.FILE)
        title, words, tags = self.browser.tell(
            "[document.title, at('words').textContent, document.querySelectorAll('img, b').length]")
        self.assertEqual((title, tags), ("<img src=x onerror=a()>\\x1B[1m.elf", 0))
        for name in odd.SHOWN:
            self.assertIn(name, words)

    def test_many_commits(self):
        image, log, played = support.played(support.example("race, plan.toml"))
        trace = Trace(image, log, played)
        self.open(repeated(Picture(trace, (), findings(trace)), 100_000), "10^5 commits")
        self.browser.key("0")
        self.assertEqual(self.browser.tell("drawn.boxes"), 100_000)


if __name__ == "__main__":
    unittest.main()
