"""Words that mean no command."""

import unittest

from support import Explained

ALL = ("The commands are `run`, `inspect`, `walk`, `interval`, `tail`, `watch`, `who`, `when`, `migrate`, `strata`, `make`, "
       "`drill` and `asm`.")


class Words(Explained):
    def usage(self, words, text):
        self.means(words, 2, "usage", text)

    def test_commands(self):
        self.usage([], "No command is given. " + ALL)
        self.usage("replay a.log", "`replay` is no command. " + ALL)
        self.usage("Walk a.elf 4096 a.log", "`Walk` is no command. Did you mean `delorean walk IMAGE MEMORY LOG`?")
        self.usage("-v run plan.toml", "`-v` is no command. There are no options before a command. " + ALL)

    def test_number_of_words(self):
        self.usage("run", "PLAN is missing. The words are `delorean run PLAN`.")
        self.usage("walk a.elf", "MEMORY and LOG are missing. The words are `delorean walk IMAGE MEMORY LOG`.")
        self.usage("make 1 a b", "`b` is one word too many: make takes 2 words. The words are `delorean make NUMBER NAME`.")

    def test_options(self):
        self.usage("run -plan.toml", "`-plan.toml` isn't an operand: there are no options, and a name that begins with - is "
                   "given after `--`. The words are `delorean run PLAN`.")
        self.means("run -- -plan.toml", 10, "absent -plan.toml", "`-plan.toml` isn't there. Did you mean `plan.toml`?")

    def test_numbers(self):
        digits = "but it has to be decimal digits, without a sign and without a 0 in front."
        for words, text in (
                ("walk a.elf 4k a.log", "MEMORY is `4k`, %s The words are `delorean walk IMAGE MEMORY LOG`." % digits),
                ("walk a.elf 0x1000 a.log", "MEMORY is `0x1000`, %s The words are `delorean walk IMAGE MEMORY LOG`." % digits),
                ("walk a.elf 04096 a.log", "MEMORY is `04096`, %s The words are `delorean walk IMAGE MEMORY LOG`." % digits),
                ("strata a.elf 100 a.log x", "MEMORY is `100`, but it has to be a multiple of 4,096 from 4,096 to 16,777,216. "
                 "The words are `delorean strata IMAGE MEMORY LOG NAME`."),
                ("watch a.elf 4096 a.log 4096", "ADDR is `4096`, but it has to be a multiple of 4 from 0 to 4,092. The words "
                 "are `delorean watch IMAGE MEMORY LOG ADDR`."),
                ("watch a.elf 4096 a.log 2", "ADDR is `2`, but it has to be a multiple of 4 from 0 to 4,092. The words are "
                 "`delorean watch IMAGE MEMORY LOG ADDR`."),
                ("who a.elf 4096 a.log 0 16777217", "I is `16777217`, but it has to be 0 to 16,777,216. The words are "
                 "`delorean who IMAGE MEMORY LOG ADDR I`."),
                ("when a.elf 4096 a.log 0 4294967296", "VALUE is `4294967296`, but it has to be 0 to 4,294,967,295. The words "
                 "are `delorean when IMAGE MEMORY LOG ADDR VALUE`."),
                ("interval a.elf 4096 a.log 0 0 1", "EVERY is `0`, but it has to be 1 to 16,777,216. The words are `delorean "
                 "interval IMAGE MEMORY LOG EVERY I J`."),
                ("interval a.elf 4096 a.log 1 0 16777217", "J is `16777217`, but it has to be 0 to 16,777,216. The words are "
                 "`delorean interval IMAGE MEMORY LOG EVERY I J`."),
                ("interval a.elf 4096 a.log 1 3 2", "I is 3, and J is 2: I can't be over J. The words are `delorean interval "
                 "IMAGE MEMORY LOG EVERY I J`."),
                ("drill 99999999999999999999999", "NUMBER is `99999999999999999999999`, but it has to be 0 to 4,294,967,295. "
                 "The words are `delorean drill NUMBER`.")):
            with self.subTest(words):
                self.usage(words, text)

    def test_words_that_are_not_utf_8(self):
        self.usage(["inspect", "a\udcff.log"], "The word `a\\xFF.log` isn't UTF-8.")


if __name__ == "__main__":
    unittest.main()
