"""What is said if nothing was found: the rule that the line names; or without the line, what the status means."""

import unittest

from support import explain

NO_FILE = ["run", "/dev/null"]  # which isn't a regular file, so it isn't read
IN_WORDS = " The rules in words are in docs/answers.md, or in `man delorean-answers`."


class Certain(unittest.TestCase):
    def test_the_rule_of_the_line(self):
        for status, line, text in (
                (3, "refused plan 5", "There are both `events` and `script`, or neither. Give exactly one; `events = 0` will "
                 "do for a replay."),
                (4, "refused image 1 6", "The program isn't for RISC-V. Compile it for riscv32."),
                (5, "refused log 0 6 38", "An entry doesn't come after the one before it. The file is damaged: copy it again, "
                 "or record it again."),
                (5, "refused strata 0 8 3", "A commit conflicts with an earlier one of another thread in its stratum. Cut the "
                 "log again, with `delorean strata` and this image."),
                (5, "refused script 7", "The line isn't empty, a comment or an event, or is the event after the 2^24th. Write "
                 "one event on a line, as in `place 0 0 1`, with spaces and without tabs, and a `#` only at the beginning."),
                (9, "refused source 2 5", "An earlier line has the label. Rename one of the two."),
                (6, "fault /", "`/` is a folder, and not a file."),
                (6, "fault nothing-shows", "A file could not be read or written. Look at its folder, its permissions, and the "
                 "room on its disk."),
                (10, "absent a.elf", "A file that is to be read isn't there. Names are looked up from the folder of the command.")):
            with self.subTest(line):
                self.assertEqual(explain(status, NO_FILE, line), text)

    def test_the_status_alone(self):
        for status, text in (
                (3, "The number is that of the first rule of plans that the plan breaks." + IN_WORDS),
                (4, "The numbers are the sphere and the first rule of images that its image breaks." + IN_WORDS),
                (5, "The numbers say what is wrong, and where." + IN_WORDS),
                (6, "A file could not be read or written. Look at its folder, its permissions, and the room on its disk."),
                (9, "The numbers are the line and the first rule that it breaks." + IN_WORDS),
                (10, "A file that is to be read isn't there. Names are looked up from the folder of the command.")):
            with self.subTest(status):
                self.assertEqual(explain(status, NO_FILE), text)

    def test_words_that_are_a_command_after_all(self):
        self.assertEqual(explain(2, ["drill", "1"]), "The words mean no command. Compare them with the synopsis.")


if __name__ == "__main__":
    unittest.main()
