"""Scripts with a wrong line."""

import unittest
from unittest import mock

from support import Explained, explain


class Scripts(Explained):
    def refused(self, script, line, text):
        self.put("s.txt", script)
        self.means("run plan.toml", 5, "refused script %d" % line, "s.txt, line %d: %s" % (line, text))

    def test_words(self):
        self.refused("step 0\nstpe 0\n", 2, "`stpe` is no event. Did you mean `step`?")
        self.refused("Step 0\n", 1, "`Step` is no event. Did you mean `step`?")
        self.refused("# x\n\nxyz 0\n", 3, "`xyz` is no event. The events are `step`, `cut`, `ask`, `drain`, `deliver`, "
                     "`retire`, `place`, `raise` and `dma`.")

    def test_numbers(self):
        for line, text in (
                ("step", "`step` has 0 numbers, but it takes 1. Write it as `step C`."),
                ("dma 0 0", "`dma` has 2 numbers, but it takes 1. Write it as `dma S`."),
                ("step x", "`x` isn't a number of decimal digits. Write it as `step C`."),
                ("deliver 0 -1", "`-1` isn't a number of decimal digits. Write it as `deliver C K`."),
                ("cut 00000000000", "`00000000000` has over 10 digits. Write it as `cut C`."),
                ("step 256", "`256` is over 255, the most that a core can be. Write it as `step C`."),
                ("retire 256", "`256` is over 255, the most that a slot can be. Write it as `retire K`."),
                ("place 0 256 0", "`256` is over 255, the most that a sphere can be. Write it as `place C S T`."),
                ("place 0 0 999", "`999` is over 255, the most that a thread can be. Write it as `place C S T`."),
                ("raise 0 0 4294967296", "`4294967296` is over 4294967295, the most that a value can be. Write it as `raise S "
                 "T V`.")):
            with self.subTest(line):
                self.refused(line + "\n", 1, text)

    def test_characters(self):
        self.refused("step 0\r\n", 1, "it has a carriage return. Lines end with LF alone: `tr -d '\\r'` takes them out.")
        self.refused("step\t0\n", 1, "it has a tab. Write spaces.")
        self.refused(" # x\n", 1, "a comment's `#` isn't the first character of its line. Take the spaces before it out.")
        self.refused("step 0 # x\n", 1, "a comment is after an event. Give it a line of its own, with the `#` first.")
        self.refused("step 0 é\n", 1, "it has a character that isn't printable ASCII. Take it out.")

    def test_too_many_events(self):
        """With a smaller limit, because so long a script takes seconds."""
        self.put("s.txt", "dma 0\n# x\ncut 0\nstep 0\n")
        with mock.patch("explain.script.MOST_COMMITS", 2):
            self.assertEqual(explain(5, ["run", "plan.toml"]), "s.txt, line 4: it is the event after the 2^24th. A run has at "
                             "most 16,777,216 events.")


if __name__ == "__main__":
    unittest.main()
