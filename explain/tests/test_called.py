"""bin/delorean adds the sentences to the program's answer: on a terminal, or if DELOREAN_EXPLAIN is 1."""

import os
import pty
import subprocess
import unittest

from support import PLAN, TOP, Explained

SCRIPT = TOP / "bin/delorean"
SAID = b"delorean: plan.toml, line 1: `cores` is 9, but it has to be 1 to 8."


@unittest.skipUnless("DELOREAN_EXPLAIN" in SCRIPT.read_text(), "the call of explain/main, which bin/delorean hasn't")
class Called(Explained):
    def setUp(self):
        super().setUp()
        self.put("plan.toml", PLAN.replace("cores = 1", "cores = 9"))

    def done(self, asked, *words, **options):
        """The status, the standard output and what else is said. asked: what DELOREAN_EXPLAIN is."""
        env = {key: v for key, v in os.environ.items() if key != "DELOREAN_EXPLAIN"}
        if asked is not None:
            env["DELOREAN_EXPLAIN"] = asked
        done = subprocess.run([SCRIPT, *words], stdout=subprocess.PIPE, env=env, **{"stderr": subprocess.PIPE, **options})
        return done.returncode, done.stdout, done.stderr

    def on_terminal(self, asked):
        """Likewise, if standard error is a terminal."""
        ours, theirs = pty.openpty()
        try:
            status, output, _ = self.done(asked, "run", "plan.toml", stderr=theirs)
            os.write(theirs, b"$")
            said = b""
            while not said.endswith(b"$"):
                said += os.read(ours, 4096)
        finally:
            os.close(ours)
            os.close(theirs)
        return status, output, said[:-1].strip()

    def test_if_asked(self):
        self.assertEqual(self.done("1", "run", "plan.toml"), (3, b"refused plan 4\n", SAID + b"\n"))

    def test_if_not_asked(self):
        for asked in (None, "0"):
            self.assertEqual(self.done(asked, "run", "plan.toml"), (3, b"refused plan 4\n", b""))

    def test_on_a_terminal(self):
        self.assertEqual(self.on_terminal(None), (3, b"refused plan 4\n", SAID))
        self.assertEqual(self.on_terminal("0"), (3, b"refused plan 4\n", b""))

    def test_nothing_after_what_is_done(self):
        status, output, said = self.done("1", "drill", "1")
        self.assertEqual((status, output[-6:], said), (0, b"equal\n", b""))
        self.put("b.log", bytes.fromhex("444C524E 01000000 64000000 01000000 01000000 00 01000000 0300 00000000 00000000 00000000"))
        status, output, said = self.done("1", "walk", "a.elf", "4096", "b.log")
        self.assertEqual((status, output, said), (1, b"end diverged 0 2 3 2\n", b""))


if __name__ == "__main__":
    unittest.main()
