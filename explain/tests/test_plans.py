"""Plans that break each rule."""

import unittest

from support import PLAN, REPLAY, Explained, explain

SPHERE = '[[sphere]]\nimage = "a.elf"\nmemory = 4096\nrole = "plain"\n'


def changed(*changes, plan=PLAN):
    """The plan with each text replaced, which it has."""
    for old, new in changes:
        assert old in plan, old
        plan = plan.replace(old, new, 1)
    return plan


class Plans(Explained):
    def refused(self, plan, rule, text):
        self.put("plan.toml", plan)
        self.means("run plan.toml", 3, "refused plan %d" % rule, "plan.toml" + text)

    def test_not_toml(self):
        advice = " Quote names, write each key once, and write `[[sphere]]` with two brackets."
        self.refused(changed(('"s.txt"', "s.txt")), 1, ", line 6, column 10: it isn't TOML here: invalid value." + advice)
        self.refused(changed(("[[sphere]]", "[[sphere]")), 1,
                     ", line 8, column 9: it isn't TOML here: expected ']]' at the end of an array declaration." + advice)
        self.refused(PLAN + 'log = "b.log"\n', 1, ", line 15, column 14: it isn't TOML here: cannot overwrite a value." + advice)
        self.refused(PLAN + "from =", 1, ", the end of line 15: it isn't TOML here: invalid value." + advice)
        self.refused(PLAN.encode() + b"# \xff\n", 1, ", line 15, byte 3: a byte isn't UTF-8, and a TOML file is. Save it as UTF-8.")
        self.refused("seed = 9223372036854775808\n" + PLAN, 1,
                     ", line 1: a number is outside those of TOML, which are -2^63 to 2^63 - 1. Change it.")

    def test_keys(self):
        self.refused("core = 1\n" + PLAN, 2, ", line 1: `core` isn't a key of the top. Did you mean `cores`?")
        self.refused('log = "a.log"\n' + PLAN, 2,
                     ", line 1: `log` isn't a key of the top. It is one of a sphere: put it after a line `[[sphere]]`.")
        self.refused(PLAN + "seed = 1\n", 2,
                     ", line 15: `seed` isn't a key of a sphere. It is one of the top: put it before the first `[[sphere]]`.")
        self.refused(PLAN + "zz = 1\n", 2,
                     ", line 15: `zz` isn't a key of a sphere. The keys are `image`, `memory`, `role`, `mode`, `version`, "
                     "`log`, `strata`, `from`, `to`, `epoch`, `keep` and `account`.")

    def test_missing_keys(self):
        self.refused(changed(("cores = 1\n", "")), 3, ": the key `cores` is missing. Add it.")
        self.refused(changed(('image = "a.elf"\n', "")), 3, ", line 8: the key `image` of sphere 0 is missing. Add it.")

    def test_types(self):
        self.refused(changed(("cores = 1", 'cores = "1"')), 3,
                     ", line 1: `cores` is a string, but it has to be a whole number. Write it without quotes and point.")
        self.refused(changed(("window = 2", "window = 2.0")), 3,
                     ", line 4: `window` is a number with a point, but it has to be a whole number. Write it without quotes "
                     "and point.")
        self.refused(changed(('"a.log"', "true")), 3, ", line 13: `log` is true or false, but it has to be a string. Write it "
                     "in quotes.")
        self.refused(changed(('"r.txt"', "1979-05-27")), 3,
                     ", line 7: `report` is a date or a time, but it has to be a string. Write it in quotes.")
        self.refused(changed(("[[sphere]]", "[sphere]")), 3,
                     ", line 8: `sphere` is a table, but it has to be an array of tables. Write `[[sphere]]` with two brackets.")
        self.refused("sphere = [1]\n" + changed(("[[sphere]]\n", "")).partition("image")[0], 3,
                     ", line 1: an item of `sphere` isn't a table. Write `[[sphere]]` for each.")

    def test_roles_and_modes_by_name(self):
        self.refused(changed(('"record"', '"recorded"')), 3,
                     ', line 11: `role` is "recorded", but it has to be "plain", "record" or "replay". Change it.')
        self.refused(changed(('"order-size"', '"size"')), 3,
                     ', line 12: `mode` is "size", but it has to be "order-size", "order-only" or "picolog". Change it.')

    def test_numbers(self):
        for old, new, text in (
                ("cores = 1", "cores = 9", ", line 1: `cores` is 9, but it has to be 1 to 8."),
                ("chunk = 100", "chunk = 15", ", line 2: `chunk` is 15, but it has to be 16 to 65,536."),
                ("buffer = 16", "buffer = 0", ", line 3: `buffer` is 0, but it has to be 1 to 4,096."),
                ("window = 2", "window = -1", ", line 4: `window` is -1, but it has to be 1 to 8."),
                ("window = 2", "window = 2\ndepth = 3", ", line 5: `depth` is 3, but it has to be 1 or 2."),
                ("signature = 64", "signature = 65",
                 ", line 5: `signature` is 65, but it has to be 64, 128, 256, 512, 1,024 or 2,048."),
                ("signature = 64", "signature = 64\nseed = -1", ", line 6: `seed` is -1, but it has to be 0 to 2^63 - 1."),
                ('script = "s.txt"', "events = 16777217", ", line 6: `events` is 16777217, but it has to be 0 to 16,777,216."),
                ("memory = 4096", "memory = 4097",
                 ", line 10: `memory` is 4097, but it has to be a multiple of 4,096 from 4,096 to 16,777,216."),
                ("mode =", "version = 3\nmode =", ", line 12: `version` is 3, but it has to be 1 or 2."),
                ("mode =", "epoch = 0\nkeep = 1\nmode =", ", line 12: `epoch` is 0, but it has to be 1 to 16,777,216."),
                ("mode =", "epoch = 1\nkeep = 65\nmode =", ", line 13: `keep` is 65, but it has to be 1 to 64."),
                ("mode =", "from = -1\nmode =", ", line 12: `from` is -1, but it has to be 0 to 16,777,216."),
                ("mode =", "to = 16777217\nmode =", ", line 12: `to` is 16777217, but it has to be 0 to 16,777,216.")):
            with self.subTest(new):
                self.refused(changed((old, new)), 4, text)

    def test_number_of_spheres(self):
        self.refused(PLAN.partition("[[")[0], 4,
                     ": there are 0 spheres, but there have to be 1 to 8. Write `[[sphere]]`, and its keys after it.")
        self.refused(PLAN + 8 * SPHERE, 4, ": there are 9 spheres, but there have to be 1 to 8.")

    def test_the_line_of_the_right_sphere(self):
        self.refused(PLAN + SPHERE.replace("4096", "0"), 4,
                     ", line 17: `memory` is 0, but it has to be a multiple of 4,096 from 4,096 to 16,777,216.")

    def test_schedules(self):
        self.refused("events = 1\n" + PLAN, 5, ", line 7: `events` and `script` are both there. Take one of them out.")
        self.refused(changed(('script = "s.txt"\n', "")), 5, ": neither `events` nor `script` is there. Say how many events "
                     "are drawn, or name a script; `events = 0` will do for a replay.")

    def test_recorded_spheres(self):
        self.refused(changed(('mode = "order-size"\n', "")), 6, ", line 8: sphere 0 is recorded, and has no `mode`. Add it.")
        self.refused(changed(('log = "a.log"\n', "")), 6, ", line 8: sphere 0 is recorded, and has no `log`. Add it.")
        self.refused(PLAN + 'strata = "a.strata"\n', 6, ", line 15: `strata` doesn't belong in a recorded sphere. Take it out.")

    def test_replayed_spheres(self):
        taken_out = " Take it out: a replay has the mode and the version of its log."
        self.refused(changed(('"record"', '"replay"')), 6, ", line 12: `mode` doesn't belong in a replayed sphere." + taken_out)
        self.refused(REPLAY + "version = 2\n", 6, ", line 14: `version` doesn't belong in a replayed sphere." + taken_out)
        self.refused(REPLAY + 'strata = "a.strata"\n', 6,
                     ", line 14: sphere 0 has both `log` and `strata`. Take one of them out.")
        self.refused(REPLAY.replace('log = "a.log"\n', ""), 6,
                     ", line 8: sphere 0 is replayed, and has neither a log nor strata. Add `log`.")

    def test_plain_spheres(self):
        for key in ("version = 1", 'mode = "picolog"', 'log = "b.log"', 'strata = "b.strata"'):
            self.refused(PLAN + SPHERE + key + "\n", 6, ", line 19: `%s` doesn't belong in a plain sphere. Take it "
                         "out." % key.split()[0])

    def test_names(self):
        self.refused(changed(('"r.txt"', '""')), 7, ", line 7: `report` is an empty name. Give the file a name.")
        self.refused(changed(('"r.txt"', '"plan.toml"')), 7,
                     ', line 7: "plan.toml" would be written over the plan itself. Give it another name.')
        self.refused(changed(('"a.txt"', '"a.elf"')), 7, ', line 14: "a.elf" is written as `account` of sphere 0, and read as '
                     "`image` of sphere 0. Give what is written another name.")
        self.refused(changed(('"a.txt"', '"r.txt"')), 7, ', line 7: "r.txt" is written twice, as `account` of sphere 0 and as '
                     "`report`. Give one of them another name.")
        self.refused(REPLAY.replace('"b.txt"', '"a.log"'), 7, ', line 13: "a.log" is written as `account` of sphere 0, and read as '
                     "`log` of sphere 0. Give what is written another name.")

    def test_long_chunks_in_version_1(self):
        self.refused(changed(("chunk = 100", "chunk = 4097")), 8, ", line 2: `chunk` is 4,097, and sphere 0 is recorded in "
                     "version 1, whose chunks have at most 4,096 instructions. Say `version = 2` in the sphere, or take a "
                     "smaller chunk.")

    def test_intervals(self):
        advice = " To see a part of a recording, record it whole and replay the part of its log."
        self.refused(PLAN + "to = 1\n", 9, ", line 15: `to` is only for a sphere that replays a log." + advice)
        self.refused(REPLAY.replace('log = "a.log"', 'strata = "a"') + "from = 1\n", 9,
                     ", line 14: `from` is only for a sphere that replays a log." + advice)
        self.refused(REPLAY + "from = 3\nto = 2\n", 9,
                     ", line 14: `from` is 3, and over `to`, which is 2. Exchange them, or change one.")

    def test_epochs(self):
        self.refused(PLAN + "epoch = 4\nkeep = 2\n", 10,
                     ", line 15: `epoch` and `keep` are only for a sphere that is recorded in version 2. Say `version = 2`.")
        self.refused(REPLAY + "keep = 2\n", 10,
                     ", line 14: `keep` is only for a sphere that is recorded in version 2. Take it out.")
        self.refused(PLAN + "version = 2\nepoch = 4\n", 10, ", line 16: `epoch` is there without `keep`. Add the other.")
        self.refused(PLAN + "version = 2\nkeep = 4\n", 10, ", line 16: `keep` is there without `epoch`. Add the other.")

    def test_the_first_rule_of_the_whole_plan(self):
        self.refused("core = 1\n" + changed(('"r.txt"', '""')), 2, ", line 1: `core` isn't a key of the top. Did you mean `cores`?")

    def test_keys_without_a_line_of_their_own(self):
        spheres = 'sphere = [\n{image = "a.elf", memory = 4096, role = "plain", log = "x"}]\n'
        self.refused(PLAN.partition("[[")[0] + spheres, 6, ": `log` doesn't belong in a plain sphere. Take it out.")

    def test_what_only_a_newer_toml_has(self):
        """Python doesn't read it, so without the program's line it isn't known which rule is broken."""
        self.put("plan.toml", PLAN.partition("[[")[0] + 'sphere = [{image = "a.elf",\nmemory = 1, role = "plain"}]\n')
        self.assertEqual(self.answer("run", "plan.toml"), (3, "refused plan 4"))
        self.assertEqual(explain(3, ["run", "plan.toml"], "refused plan 4"),
                         "A number is out of its range, or there are no spheres or over 8. Change the number.")
        self.assertEqual(explain(3, ["run", "plan.toml"]), "The number is that of the first rule of plans that the plan "
                         "breaks. The rules in words are in docs/answers.md, or in `man delorean-answers`.")


if __name__ == "__main__":
    unittest.main()
