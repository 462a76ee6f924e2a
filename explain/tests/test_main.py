"""The script that bin/delorean calls: what it writes where, and that nothing else shows."""

import os
import subprocess
import unittest

from support import PLAN, PROGRAM, SILENT, TOP, Explained

MAIN = TOP / "explain/main"
CORES = "delorean: plan.toml, line 1: `cores` is 9, but it has to be 1 to 8.\n"


class Main(Explained):
    def said(self, *words, **options):
        """What is on standard error. Nothing is on standard output, and the status is 0."""
        done = subprocess.run([MAIN, *words], stderr=subprocess.PIPE, **{"stdout": subprocess.PIPE, **options})
        self.assertEqual((done.returncode, done.stdout or b""), (0, b""))
        return done.stderr.decode()

    def test_one_line(self):
        self.put("plan.toml", PLAN.replace("cores = 1", "cores = 9"))
        self.assertEqual(self.said("3", "run", "plan.toml"), CORES)

    def test_other_statuses(self):
        for status in ("0", "1", "125", "130", "139"):
            self.assertEqual(self.said(status, "run", "plan.toml"), "")
        self.assertEqual(self.said("137", "run", "plan.toml"),
                         "delorean: The program was killed. If nobody did that, the system did, because memory ran out.\n")

    def test_it_fails_in_silence(self):
        self.assertEqual(self.said(), "")
        self.assertEqual(self.said("x", "run"), "")
        closed = subprocess.run(["sh", "-c", '"$0" 2 run 2>&- >&-', MAIN])
        self.assertEqual(closed.returncode, 0)

    def test_nothing_is_written(self):
        before = sorted(os.listdir("."))
        self.said("6", "run", "plan.toml")
        self.said("6", "asm", "a.s", "x.elf")
        self.assertEqual(sorted(os.listdir(".")), before)

    def test_the_line_in_a_file(self):
        """If standard output is a file, the program's own line is known. A plan that has changed since isn't read wrongly."""
        self.put("plan.toml", PLAN.replace("chunk = 100", "chunk = 1"))
        with open("out", "ab") as out:
            subprocess.run([PROGRAM, "run", "plan.toml"], stdout=out, env=SILENT)
            self.put("plan.toml", "core = 1\n" + PLAN)
            done = subprocess.run([MAIN, "3", "run", "plan.toml"], stdout=out, stderr=subprocess.PIPE)
        self.assertEqual(done.stderr.decode(),
                         "delorean: A number is out of its range, or there are no spheres or over 8. Change the number.\n")
        with open("out", "rb") as out:
            self.assertEqual(out.read(), b"refused plan 4\n")

    def test_a_plan_from_a_pipe(self):
        """It was used up by the program."""
        told = self.said("3", "run", "/dev/stdin", input=b"")
        self.assertEqual(told, "delorean: The number is that of the first rule of plans that the plan breaks. The rules in "
                         "words are in docs/answers.md, or in `man delorean-answers`.\n")

    def test_a_plan_from_a_file_as_standard_input(self):
        self.put("plan.toml", PLAN.replace("cores = 1", "cores = 9"))
        with open("plan.toml", "rb") as plan:
            self.assertEqual(self.said("3", "run", "/dev/stdin", stdin=plan), CORES.replace("plan.toml", "/dev/stdin"))

    def test_output_that_fails(self):
        rest = (" Standard output failed, so the text is cut or missing, but all files are written. Give the command again "
                "with another output.")
        with open("/dev/full", "wb") as full:
            self.assertEqual(subprocess.run([PROGRAM, "drill", "1"], stdout=full, env=SILENT).returncode, 7)
            self.assertEqual(self.said("7", "drill", "1", stdout=full),
                             "delorean: Standard output takes no bytes: it is always full." + rest + "\n")
        self.assertEqual(self.said("7", "drill", "1"),
                         "delorean: Standard output is a pipe, and what reads it has ended before it had all." + rest + "\n")
        closed = subprocess.run(["sh", "-c", '"$0" 7 drill 1 >&-', MAIN], stderr=subprocess.PIPE)
        self.assertEqual(closed.stderr.decode(), "delorean: Standard output is closed." + rest + "\n")

    def test_memory(self):
        told = subprocess.run(["sh", "-c", 'ulimit -v 400000; exec "$0" 8 walk a.elf 16777216 a.log', MAIN], stderr=subprocess.PIPE)
        self.assertEqual(told.stderr.decode(), "delorean: Memory ran out: `ulimit -v` allows 400,000 KiB. Raise that, or take "
                         "fewer spheres, smaller memories or fewer events.\n")
        self.assertEqual(self.said("8", "walk", "a.elf", "16777216", "a.log"), "delorean: Memory ran out. Take fewer spheres, "
                         "smaller memories or fewer events, or raise a limit that is set.\n")

    def test_names_that_a_terminal_would_act_on(self):
        self.put("plan.toml", PLAN.replace('"record"', '"\\u001b[31m"'))
        self.assertEqual(self.said("3", "run", "plan.toml"), 'delorean: plan.toml, line 11: `role` is "\\u001b[31m", but it has '
                         'to be "plain", "record" or "replay". Change it.\n')
        self.assertEqual(self.said("10", "inspect", "a\x1b[1m\n"),
                         "delorean: `a\\x1B[1m\\x0A` isn't there. Names count from the folder of the command.\n")


if __name__ == "__main__":
    unittest.main()
