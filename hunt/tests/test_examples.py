"""The recordings beside the examples are what the proved program records, and the mended programs end with 0."""

import shutil
import subprocess
import tempfile
import unittest
from pathlib import Path

import support
from lib.account import program

FOLDERS = sorted(plan.parent for plan in support.TOP.glob("hunt/examples/*/plan.toml"))
NOT_BUILT = "recordings by the proved program, which isn't built"


class Recordings(unittest.TestCase):
    @unittest.skipUnless(support.can_walk(), NOT_BUILT)
    def test_they_are_recorded_again(self):
        for folder in FOLDERS:
            for plan in ("plan.toml", "mended.toml"):
                with self.subTest(folder.name + ", " + plan), tempfile.TemporaryDirectory() as scratch:
                    copy = Path(shutil.copytree(folder, Path(scratch) / "copy"))
                    subprocess.run([*program(), "run", plan], cwd=copy, check=True, stdout=subprocess.DEVNULL)
                    written = sorted(path.name for path in copy.glob("*") if path.suffix in (".log", ".txt"))
                    self.assertEqual(len(written), 2)
                    for name in written:
                        self.assertEqual((copy / name).read_bytes(), (folder / "expected" / name).read_bytes(), name)

    def test_how_they_end(self):
        for folder, wanted in (("aba", "ended:1"), ("interrupt", "ended:5"), ("wake-up", "ended:102")):
            for account in (support.TOP / "hunt/examples" / folder / "expected").glob("*.txt"):
                line = next(line for line in account.read_text().splitlines() if line.startswith("t 0 "))
                self.assertEqual(line.split()[3], "ended:0" if account.name == "mended.txt" else wanted, account)


if __name__ == "__main__":
    unittest.main()
