"""docs/answers.md has the texts that are said."""

import unittest

from support import TOP

from explain.page import page


class Page(unittest.TestCase):
    def test_it_is_as_the_texts_make_it(self):
        self.assertEqual((TOP / "docs/answers.md").read_text(), page(), "checks/answers --page > docs/answers.md makes it anew")


if __name__ == "__main__":
    unittest.main()
