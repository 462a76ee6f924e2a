"""The programs with known bugs: hunt/find finds some of them and clears their mended twins, and the host's compiler takes all."""

from pathlib import Path
import os
import re
import shutil
import subprocess
import sys
import unittest

EXAMPLES = Path(__file__).resolve().parent.parent / "examples"
sys.path.insert(0, str(EXAMPLES))

from measuring import ours  # noqa: E402

SOME = ("account", "deadlock", "doublefree", "early", "hazard", "overrun", "philosophers", "semaphore", "stealing", "upgrade")
HAS_PROGRAM = bool(os.environ.get("DELOREAN")) or (ours.TOP / "out/delorean").is_file()


class Examples(unittest.TestCase):
    @unittest.skipUnless(HAS_PROGRAM, "programs with bugs: the proved program isn't built")
    def test_found_told_and_replayed(self):
        for name in SOME:
            with self.subTest(name):
                row = ours.measure(EXAMPLES / (name + ".c"))
                self.assertEqual(row["status"], 1, row["told"])
                self.assertTrue(row["named"], row["told"]["found"]["order"])
                self.assertTrue(row["replayed"])
                self.assertEqual(row["twin status"], 0, row["twin"])

    @unittest.skipUnless(shutil.which("gcc"), "programs with bugs, for the host: there is no gcc")
    def test_host_takes_them(self):
        for source in sorted(EXAMPLES.glob("**/*.c")):
            for twin in ([], ["-DMENDED"]):
                with self.subTest(source.name):
                    done = subprocess.run(["gcc", "-std=gnu11", "-Wall", "-Wextra", "-pthread", "-fsyntax-only", *twin, source],
                                          capture_output=True, text=True)
                    self.assertEqual((done.returncode, done.stderr), (0, ""))

    def test_each_is_on_the_page(self):
        page = (EXAMPLES / "README.md").read_text()
        kinds, _, table = page.partition("## What finds them")
        for source in sorted(EXAMPLES.glob("*.c")):
            self.assertIn("`%s`" % source.stem, kinds)
            self.assertIn("| `%s` |" % source.stem, table)

    def test_each_names_its_line(self):
        for source in sorted(EXAMPLES.glob("**/*.c")):
            with self.subTest(source.name):
                text = source.read_text()
                self.assertIn("The bug is in line ", re.sub(r"\s+", " ", text.partition("*/")[0]))
                self.assertTrue("MENDED" in text or "reorder3.c" in text)
                file, line = ours.line_of(source).split(":")
                self.assertTrue((source.parent / file).read_text().splitlines()[int(line) - 1].strip())


if __name__ == "__main__":
    unittest.main()
