"""Files that aren't there, can't be read, or can't be written; and an output that fails."""

import os
from pathlib import Path
import subprocess
import unittest
from unittest import mock

from support import PROGRAM, SILENT, TOP, Explained, explain

NOBODY = 65534


class Absent(Explained):
    def test_names(self):
        self.means("inspect b.txt", 10, "absent b.txt", "`b.txt` isn't there. Names count from the folder of the command.")
        self.means("inspect A.log", 10, "absent A.log", "`A.log` isn't there. Did you mean `a.log`?")
        self.means(["inspect", ""], 10, "absent ", "The name of the file is empty.")

    def test_the_first_that_is_read(self):
        os.remove("s.txt")
        os.remove("a.elf")
        self.means("run plan.toml", 10, "absent s.txt", "`s.txt` isn't there. Names count from the folder of the command.")

    def test_the_folder_of_the_plan(self):
        os.mkdir("there")
        for name in ("plan.toml", "s.txt", "a.elf"):
            os.rename(name, "there/" + name)
        self.means("run there/plan.toml", 10, "absent s.txt", "`s.txt` isn't there. It is in the plan's folder, but names "
                   "count from the folder of the command: `cd there` first.")
        os.remove("there/s.txt")
        self.means("run there/plan.toml", 10, "absent s.txt", "`s.txt` isn't there. Names count from the folder of the "
                   "command, and not from the plan's.")


class Reading(Explained):
    def fault(self, words, name, reason):
        self.means(words, 6, "fault " + name, "`%s` %s." % (name, reason))

    def test_what_is_no_file(self):
        self.fault("inspect .", ".", "is a folder, and not a file")
        self.fault("inspect a.log/x", "a.log/x", "can't be there: a part of it that should be a folder is a file")

    def test_links_and_long_names(self):
        os.symlink("loop", "loop")
        self.fault("tail loop", "loop", "leads to itself: it is a link that goes round in a circle")
        name = 300 * "a"
        self.means(["tail", name], 6, "fault " + name, "`%s..` is too long for a name." % (58 * "a"))

    def test_a_log_through_a_pipe(self):
        os.mkfifo("pipe")
        writer = os.open("pipe", os.O_RDWR)
        self.addCleanup(os.close, writer)
        os.write(writer, b"DLRN")
        self.fault("inspect pipe", "pipe", "isn't a regular file: a log is opened again for each of its pieces, so it can't "
                   "come through a pipe")

    def test_a_large_file(self):
        with open("large", "wb") as file:
            file.truncate((1 << 30) + 1)
        text = "`large` has 1,073,741,825 bytes, and at most 1,073,741,824 are read of a file that isn't a log."
        self.assertEqual(explain(6, ["tail", "large"], "fault large"), text)


class Writing(Explained):
    fault = Reading.fault

    def test_folders(self):
        self.fault("make 1 nowhere/m.elf", "nowhere/m.elf", "can't be made: there is no folder `nowhere`, and folders aren't made")
        self.fault("asm a.s a.log/x", "a.log/x", "can't be there: a part of it that should be a folder is a file")
        self.fault("asm a.s .", ".", "is a folder, and not a file")
        self.fault("migrate a.log nowhere/b", "nowhere/b", "can't be made: there is no folder `nowhere`, and folders aren't made")
        self.fault("strata a.elf 4096 a.log nowhere/b", "nowhere/b",
                   "can't be made: there is no folder `nowhere`, and folders aren't made")

    def test_links_and_long_names(self):
        os.symlink("nowhere/x", "link")
        folder = os.path.realpath("nowhere")
        self.fault("make 1 link", "link", "can't be made: there is no folder `%s`, and folders aren't made" % folder)
        name = 300 * "a"
        self.means(["make", "1", name], 6, "fault " + name, "`%s..` is too long for a name." % (58 * "a"))

    def test_each_file_of_a_plan(self):
        plan = Path("plan.toml").read_text()
        for name in ("a.log", "a.txt", "r.txt"):
            with self.subTest(name):
                self.put("plan.toml", plan.replace(name, "nowhere/x"))
                self.fault("run plan.toml", "nowhere/x", "can't be made: there is no folder `nowhere`, and folders aren't made")

    def test_full(self):
        self.fault("make 1 /dev/full", "/dev/full", "takes no bytes: it is always full")
        system = mock.Mock(f_flag=0, f_blocks=9, f_bavail=0, f_frsize=4096)
        with mock.patch("os.statvfs", return_value=system):
            self.assertEqual(explain(6, ["make", "1", "m.elf"]), "`m.elf` can't be written: its disk is full.")

    def test_what_does_not_show(self):
        self.assertEqual(explain(6, ["make", "1", "m.elf"]), "A file could not be read or written. Look at its folder, its "
                         "permissions, and the room on its disk.")


class Permission(Explained):
    """As a user who may not read or write a file; the superuser takes another user's place."""

    def means_to_nobody(self, words, line, text):
        other = {"user": NOBODY} if os.geteuid() == 0 else {}
        os.chmod(".", 0o755)
        try:
            done = subprocess.run([PROGRAM, *words.split()], stdout=subprocess.PIPE, env=SILENT, **other)
            told = subprocess.run([TOP / "explain/main", "6", *words.split()], stdout=subprocess.DEVNULL, stderr=subprocess.PIPE, **other)
        except PermissionError:
            self.skipTest("permissions, because no other user may run the program where it is")
        self.assertEqual((done.returncode, done.stdout.decode()), (6, line + "\n"))
        self.assertEqual(told.stderr.decode(), "delorean: %s\n" % text)

    def test_reading(self):
        os.chmod("a.log", 0)
        self.means_to_nobody("inspect a.log", "fault a.log", "`a.log` may not be read: you have no permission.")

    def test_writing(self):
        os.chmod("a.s", 0o444)
        self.means_to_nobody("make 1 a.s", "fault a.s", "`a.s` may not be written: you have no permission.")
        os.mkdir("closed", 0o555)
        self.means_to_nobody("make 1 closed/m.elf", "fault closed/m.elf", "`closed/m.elf` can't be made: you have no "
                             "permission to write in the folder `closed`.")

    def test_reaching(self):
        os.mkdir("hidden")
        os.rename("a.log", "hidden/a.log")
        os.chmod("hidden", 0)
        self.addCleanup(os.chmod, "hidden", 0o755)
        self.means_to_nobody("inspect hidden/a.log", "fault hidden/a.log", "`hidden/a.log` may not be reached: you have no "
                             "permission for one of its folders.")


if __name__ == "__main__":
    unittest.main()
